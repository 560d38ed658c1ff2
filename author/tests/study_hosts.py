"""Plays `cwtune-study` and a race on hosts, with GNU parallel, ssh, rsync and an sshd of its own,
and what hosts do for a race on this one."""
import argparse, contextlib, io
from unittest import mock

from author.lib import grid, race
from author.lib.race import fights as race_fights, hosts as race_hosts
from author.lib.spread.jobs import LocalJobs
from author.lib.writing import temporary_folder

from .hosts import NOTHING, OnHosts
from .study_trial import OPPONENTS, PLANE, StudyTrial
from .trial import came_of

# A setting whose aim is 0 does not assemble.
HOLED = PLANE.replace("aim -4 4 1 0", "aim -20 20 1 4").replace("#aim", "#aim/aim*aim")
THREE = PLANE.replace("STEP 1 9 2 5", "STEP 3 5 2 5").replace("aim -4 4 1 0", "aim 3 3 1 3")


class RaceTrial(StudyTrial):
    """A trial of races, with a file of two hosts."""

    FILES = StudyTrial.FILES | {"holed.red": HOLED, "few.red": THREE, "hosts": "good\nshared\n"}

    def arena(self, folder, program, hosts):
        """Returns an arena for holed.red."""
        args = argparse.Namespace(program=str(program), seed=1, jobs=1, hill="nano", hosts=hosts)
        paths = [str(self.folder / "all" / name) for name in OPPONENTS]
        return race_fights.Arena(args, race_fights.Budget(3000),
                                 grid.Grid(self.folder / "holed.red"), paths, [1, 2, 1], [], folder)

    def raced(self, seconds_of_play=0.0, hosts=None):
        """Returns what a race found, with its records, and how many of its plays were here."""
        with (temporary_folder() as folder, self.arena(folder, self.program, hosts) as arena,
              contextlib.redirect_stderr(io.StringIO())):
            processes = arena.processes
            processes.seconds, processes.plays = 1e9 * seconds_of_play, 10 ** 9
            outcome = race.Race(arena.grid, arena, 1).run()
            records = [(record["settings"], record["points"]) for record in arena.records]
            found = outcome.winner, outcome.rise, outcome.points, records
            return found, processes.plays - 10 ** 9


class StudyOnHosts(OnHosts, RaceTrial):
    """A study and a race on hosts that answer."""

    def test_on_hosts(self):
        """Makes a study here and on hosts. Then races, with the gain on hosts."""
        found = []
        for words in [], ["--hosts=hosts"]:
            status = self.study("--anew", *words, "few.red", "all").status
            report = self.report("few")
            commands = report.pop("commands")
            found.append((status, report))
        self.same("a study finds the same", found[0], found[1])
        self.same("hosts tuned", True, any(f"--hosts={self.folder}/hosts" in command
                                           for command in commands))
        found, all_plays = self.raced()
        # No other heat has the 119 plays that would take a minute.
        found_on_hosts, plays = self.raced(60 / 119, self.folder / "hosts")
        self.same("a race finds the same", found, found_on_hosts)
        self.same("hosts played", 96, all_plays - plays)
        self.same("nothing is left", NOTHING, self.remains())


class RaceOfHosts(RaceTrial):
    """Races with what hosts do made up."""

    def test_ahead(self):
        """Races, with all heats but the short ones ahead by jobs in place of hosts."""
        found, all_plays = self.raced()
        played = [points for _, of_settings in found[-1] for points in of_settings]
        self.same("a setting does not assemble", True, None in played)
        played_ahead = []

        def play(hosts, folder):
            points = play_pieces(hosts, folder)
            played_ahead.extend(points)
            return points

        play_pieces = race_hosts.Hosts.play
        # A play takes a second, so two hosts are given 104 plays at once.
        with (mock.patch.multiple(race_hosts, HostJobs=LocalJobs, SECONDS=13),
              mock.patch.object(race_hosts.Hosts, "play", play)):
            found_ahead, plays = self.raced(1, self.folder / "hosts")
        self.same("what is found is the same", found, found_ahead)
        self.same("few plays are left", True, plays < 100 < all_plays)
        self.same("what is played ahead is used", all_plays, plays + len(played_ahead))

    def test_faults(self):
        piece, no_output = race_hosts.Piece([(1, 1)], []), "program tune: not the output of cwtune"
        for text, fault in [("echo failed: it broke >&2; exit 3", "it broke"),
                            ("exit 1", "cwtune ended with status 1"),
                            ("echo; echo; echo x", no_output),
                            ("echo; echo; echo cap,0,0:1", no_output)]:
            self.write_program("program", text)
            with (temporary_folder() as folder, self.arena(folder, self.folder / "program",
                                                           self.folder / "hosts") as arena,
                  mock.patch.object(race_hosts, "HostJobs", LocalJobs)):
                came = came_of(lambda: arena.hosts.play(race_hosts.PiecesFolder(arena, [piece])))
            self.same(text, f"{self.folder}/" * (fault == no_output) + fault, came)
