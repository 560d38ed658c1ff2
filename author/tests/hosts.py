"""Plays `cwtune-spread --hosts` with GNU parallel, ssh, rsync and an sshd of its own."""
import os, signal, subprocess, time
from unittest import mock

from .spread_trial import DECOY, SpreadTrial, left_over, without_fights
from .ssh_hosts import SHELLS, SSHD, SshHosts
from .trial import SECONDS, Result, running_in, wait_until

NOTHING = [], [], []
# The name of a folder that is code for GNU parallel, for Perl and for shells.
ODD = """{= $_=`touch pwned-here` =} $(touch pwned) `touch pwned` {} '"; touch pwned #\n-x"""
# A stand-in for the program, which takes a second for a part, or a minute while there is a file
# `held`, and which a host cannot run.
SLOW = """case $HOME in */home-noexec) echo ./cwtune: Permission denied >&2; exit 126;; esac
case $1$2 in tune--part*) sleep 1; [ ! -e {folder}/held ] || sleep 60;; esac
exec {program} "$@"
"""
# What is said of a host at which nobody listens, and a spread that a trial kills.
DEAD = "note: dead is left out: ssh: connect to host 127.0.0.1 port "
SPREAD = "cwtune-spread --program=./slow --hosts=hosts --parts=8 --jobs=1"


class OnHosts:
    """What a trial has that plays on hosts, as a class beside `Trial`."""

    def setUp(self):
        super().setUp()
        self.need("parallel", "ssh", "ssh-keygen", "rsync", sshd=SSHD)
        self.hosts = self.enterContext(SshHosts(self.top / "ssh"))
        self.enterContext(mock.patch.dict(os.environ, self.hosts.environment()))
        self.settle(self.top / "work")

    def remains(self):
        """Returns what a run left: processes after some seconds, folders of hosts and of CERT."""
        deadline = time.monotonic() + 8
        while (running := running_in(self.top)) and time.monotonic() < deadline:
            time.sleep(0.1)
        work = [path.name for path in self.folder.glob("CERT.*") if path.is_dir()]
        return running, self.hosts.left(), work


class Hosts(OnHosts, SpreadTrial):
    def setUp(self):
        super().setUp()
        self.write_program("slow", SLOW.format(program=self.program, folder=self.folder))

    def on(self, hosts, *words):
        self.write("hosts", "\n".join(hosts.split()))
        return self.spread("--hosts=hosts", *words)

    def test_tunes_and_checks(self):
        """Tunes and checks on hosts that are good, one by an ssh of its own, dead, or this one."""
        tuned = self.tuned()
        self.write("hosts", f"good\n1/ssh -F {self.hosts.folder}/config shared\n\n#x\ndead\n:\n")
        status, out, err = self.spread("--hosts=hosts", "--parts=4", "--jobs=1", "--check",
                                       "--shares=4", *DECOY)
        report, accepted, verdict = out.rpartition("accepted")
        self.same("a tuning", tuned, (without_fights(Result(status, report, "")),
                                      self.check(DECOY)))
        self.same("its check", (0, accepted + verdict), self.verdict(DECOY))
        self.same("what remains", NOTHING, self.remains())
        self.same("a dead host is named once", [DEAD],
                  [line[:len(DEAD)] for line in err.splitlines()])
        self.idle_folders()

    def idle_folders(self):
        """Tunes on a host where other runs of GNU parallel have folders with nothing in them."""
        used, left = (self.hosts.home("good") / f".parallel/tmp/other-{pid}-1" for pid in (1, 2))
        for path in used, left:
            path.mkdir(parents=True)
        with subprocess.Popen(["sleep", str(SECONDS)], cwd=used) as job:
            status = self.on("good", "--parts=1", *DECOY).status
            job.kill()
        self.same("an empty folder goes, unless a process is in it", (0, True, False), (
            status, used.is_dir(), left.is_dir()))

    def test_failing(self):
        tuned = self.tuned()
        words = ["--program=./slow", "--jobs=1", *DECOY]
        line = "failed: no result for part 1 of 1 (./cwtune: Permission denied)\n"
        self.same("alone", (3, "", line + left_over(0, 1, "parts")),
                  self.on("noexec", "--parts=1", *words))
        self.clear()
        came = self.on("noexec good", "--parts=2", *words)
        self.same("beside another", (tuned, NOTHING), (self.found(DECOY, came), self.remains()))

    def test_lost_hosts(self):
        """Tunes on a host that dies, one that goes silent, one without the program, and here."""
        self.tune(*DECOY)
        best = self.read("CERT").splitlines()[:2]
        self.clear()
        self.write("hosts", "dying\nsilent\nnoexec\n:\n")
        with (mock.patch.dict(os.environ, {"CWTUNE_SILENT_SECONDS": "4"}),
              self.started(SPREAD, "--check", *DECOY) as job):
            self.wait_for(2, job)
            self.hosts.kill("dying")
            self.hosts.proxy.silence.set()
            status = job.wait(SECONDS)
        self.same("the certificate", (0, best, 0, []), (
            status, (self.read("CERT") or b"").splitlines()[:2], self.check(DECOY),
            self.remains()[2]))

    def test_refused(self):
        status, out, err = self.on("dead dead dead", *DECOY)
        first, last, *more = err.splitlines()
        self.same("dead hosts", (3, "", DEAD, "failed: no host of hosts is ready", []), (
            status, out, first[:len(DEAD)], last, more))
        for name in ["parallel", "rsync"]:
            self.write_program(name, "exit 9\n")
        with mock.patch.dict(os.environ, {"PATH": str(self.folder)}):
            self.same("no pkill", (2, "", "error: --hosts needs pkill, and there is none (Debian: "
                      "apt-get install procps)\n"), self.on("good", *DECOY))

    def test_shared(self):
        tuned = self.tuned()
        for _ in range(2):
            status, out, err = self.on("shared :", "--parts=2", "--check", "--shares=2", *DECOY)
            self.same("--check", ((*tuned[0][:2], ""), NOTHING), (
                without_fights(Result(status, out.rpartition("accepted")[0], err)), self.remains()))
        self.same("--check-only", (*self.verdict(DECOY), ""), self.on(
            "shared :", "--check-only", "--shares=2", *DECOY))

    def test_names(self):
        """Tunes in a folder whose name is code, with words whose names are."""
        tuned = self.tuned()
        (self.folder / ODD).mkdir()
        self.settle(self.folder / ODD)
        self.write(ODD, self.read("decoy.red"))
        words = [ODD, *DECOY[1:]]
        self.same("an odd name", (tuned, []), (
            self.found(words, self.on("good :", "--parts=3", *words)),
            [str(path) for path in self.top.rglob("pwned*")]))

    def test_shells(self):
        """Tunes on hosts with other login shells, and for somebody who has one."""
        tuned = self.tuned()
        for name, shell in SHELLS.items():
            if not shell:
                with self.subTest(name):
                    self.skipTest(f"no {name}")
                continue
            with mock.patch.dict(os.environ, {"SHELL": shell}):
                came = self.on(f"{name} :", "--parts=2", "--jobs=1", *DECOY)
            self.same(name, (tuned, NOTHING), (self.found(DECOY, came), self.remains()))
            self.clear()

    def test_kills(self):
        tuned = self.tuned()
        self.write("hosts", "good\nshared\n:\n")
        for number, signal_number in enumerate([signal.SIGKILL, signal.SIGHUP, signal.SIGTERM], 1):
            with self.started(SPREAD, *DECOY) as job:
                self.wait_for(number, job)
                self.write("held", "")
                time.sleep(1.5)
                job.send_signal(signal_number)
                job.wait(SECONDS)
            running, _, _ = self.remains()
            (self.folder / "held").unlink()
            self.same(f"signal {signal_number} leaves nothing running", [], running)
        self.same("the command again", (tuned, NOTHING), (
            self.found(DECOY, self.call(SPREAD, *DECOY)), self.remains()))

    def test_kills_at_start(self):
        """Kills a spread while it waits for the answer of a host, and tunes on another one."""
        temporary = self.folder / "temporary"
        temporary.mkdir()
        self.hosts.proxy.silence.set()
        self.write("hosts", "silent\n")
        words = ["--parts=1", *DECOY]
        with mock.patch.dict(os.environ, {"TMPDIR": str(temporary)}):
            for signal_number in [signal.SIGKILL, signal.SIGTERM]:
                with self.started("cwtune-spread --hosts=hosts", *words) as job:
                    wait_until(lambda: [*self.folder.glob("*/par*")], job)
                    job.send_signal(signal_number)
                    job.wait(SECONDS)
                running, _, _ = self.remains()
                self.same(f"signal {signal_number} leaves nothing running, or in the temporary "
                          "folder", ([], []), (running, os.listdir(temporary)))
            status = self.on("good", *words).status
        self.same("nor does the next run", (0, NOTHING, []), (
            status, self.remains(), os.listdir(temporary)))
