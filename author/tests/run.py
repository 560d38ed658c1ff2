"""Runs the commands for authors on the examples and compares with the results in expected/, and
plays the trials of the other modules here.

Trials that need tools which are not installed, as matplotlib, are left out and named. With --store
the results replace those stored; look at the difference before you keep them. A picture is compared
by its words and numbers, and by how many grey marks it has. Prints what failed, and as its last
line `N passed, N failed`; the exit status is 1 if a trial failed. What failed begins with the name
that -k takes:

    python3 -m author.tests.run -k spreading.floors
"""
import os, pathlib, re, shutil, signal, subprocess, sys, tempfile, unittest

from author.lib.endings import run_tool
from author.lib.words import add_built, module_parser
from author.lib.writing import write_bytes

from . import (adapting, clusters, hosts, landscapes, merging, origins, own_folders, racing,
               refusals, reporting, sharing, spreading, strangers, study_hosts, studying, varying,
               warriors)
from .trial import (AUTHOR, SECONDS, TUNING, Trial, came_of, command, name_of, play,
                    python_with_matplotlib, run)

MODULES = [warriors, varying, adapting, racing, origins, landscapes, refusals, strangers,
           own_folders, studying, spreading, merging, sharing, hosts, study_hosts, clusters,
           reporting]
EXPECTED = pathlib.Path(__file__).resolve().parent / "expected"

# The name of a result, and the words of the run; files are those of examples/tuning/.
PLAIN = {
    "series.csv": "cwtune-series 1234 25 5",
    "series-small.csv": "cwtune-series 33 7 2 --core 80 --distance 20",
    "series-hill.csv": "cwtune-series 33 3 1 --hill nano",
    "series-near.txt": "cwtune-series 99 25 5",
    "series-many.txt": "cwtune-series 1234 5001 2",
    "files.txt": "cwtune-files stone.red decoy.red schedule.csv weighted.csv all-fights.cert "
                 "weighted.cert",
    "scores-all-fights.txt": "cwtune-scores all-fights.cert schedule.csv --template stone.red",
    "scores-weighted.txt": "cwtune-scores weighted.cert weighted.csv --template stone.red --top 3",
    "scores-decoy.txt": "cwtune-scores decoy.cert schedule.csv --template decoy.red --top 4",
    "scores-alone.txt": "cwtune-scores step.cert schedule.csv",
    "scores-other.txt": "cwtune-scores step.cert schedule.csv --template stone.red",
    "no-weights.txt": "cwtune-landscape stone.red weighted.cert picture.svg",
    "other-template.txt": "cwtune-landscape step.red weighted.cert picture.svg",
}
# Command lines that run the program before they write anything.
RUN_PROGRAM = ["cwtune-adapt ../warriors/dwarf.red",
               "cwtune-warrior step.red --setting 3", "cwtune-vary ../warriors/dwarf.red step=4:5",
               "cwtune-seek --jobs=2 step.red schedule.csv ../warriors/dwarf.red",
               "cwtune-study step.red ../warriors/dwarf.red"]
NO_PROGRAM = "no cwtune here or on the PATH: give --program FILE\n"
COMMANDS = sorted(path.name for path in AUTHOR.glob("cwtune-*"))
PICTURES = {
    "line.txt": "cwtune-landscape step.red step.cert",
    "map.txt": "cwtune-landscape stone.red all-fights.cert",
    "map-weighted.txt": "cwtune-landscape stone.red weighted.cert --schedule weighted.csv",
    "maps.txt": "cwtune-landscape decoy.red decoy.cert",
    "maps-axes.txt": "cwtune-landscape decoy.red decoy.cert --axes PLACE,DECOY",
    "map-opponent.txt": "cwtune-landscape stone.red all-fights.cert --schedule schedule.csv "
                        "--opponent 3",
}


class Stored(Trial):
    """Results that are stored. With REPLACES they are stored anew."""

    REPLACES = False

    def compared(self, name, came):
        path = EXPECTED / name
        if self.REPLACES:
            path.write_text(came, "utf-8")
        self.same(name, path.read_text("utf-8") if path.exists() else None, came)

    def test_results(self):
        for name, words in PLAIN.items():
            status, out, err = run(*words.split())
            self.compared(name, out + err + (f"status {status}\n" if status else ""))

    def test_pictures(self):
        """Compares pictures with their words and numbers that are stored, a line for each."""
        self.need(**{"matplotlib (Debian: apt-get install python3-matplotlib)":
                     python_with_matplotlib()})
        for name, words in PICTURES.items():
            self.compared(name, self.drawn(words.split()))

    def drawn(self, words):
        png, svg = self.folder / "picture.png", self.folder / "picture.svg"
        for picture in (png, svg):
            status, out, err = run(*words[:3], str(picture), *words[3:],
                                   python=python_with_matplotlib())
            if status:
                return out + err
        if not png.read_bytes().startswith(b"\x89PNG"):
            return "not a PNG file\n"
        text = svg.read_text("utf-8")
        grey, images = text.count("fill: #cccccc"), text.count("<image ")
        labels = re.findall(r"<text[^>]*>([^<]*)</text>", text)
        return "\n".join([f"{grey} grey, {images} images", *labels]) + "\n"


class Commands(Trial):
    """What all commands have."""

    def test_helps(self):
        for name in COMMANDS:
            status, out, _ = run(name, "--help")
            self.same(f"{name} --help", 0, status)
            self.same(f"{name} --help: the statuses", 1, out.count("\nExit status"))
            self.same(f"{name} --help: an example", 1, out.count(f"\nExample: {name} "))

    def test_full(self):
        for words, fault in {"series 1234 25 5": "standard output: No space left on device",
                             "files step.red none": "none: No such file or directory"}.items():
            words = f"PYTHONSAFEPATH=1 PYTHONUNBUFFERED= {AUTHOR}/cwtune-{words} >/dev/full"
            completed = subprocess.run(words, shell=True, cwd=TUNING, capture_output=True,
                                       text=True, timeout=SECONDS)
            self.same(words, (3, f"failed: {fault}\n"), (completed.returncode, completed.stderr))
        words = f"{AUTHOR}/cwtune-warrior --program={self.program} step.red --setting=0"
        completed = subprocess.run(["sh", "-c", f"ulimit -f 0; exec {words}"], cwd=TUNING,
                                   capture_output=True, text=True, timeout=SECONDS)
        self.same("no room for temporary files", (3, "failed: No usable temporary directory"),
                  (completed.returncode, completed.stderr[:37]))
        self.same("a full disk", "/dev/full: No space left on device",
                  came_of(write_bytes, "/dev/full", b"x"))

    def test_link(self):
        with tempfile.TemporaryDirectory() as folder:
            for name in "numbers", "cwtune-best":
                link = pathlib.Path(folder, name)
                link.symlink_to(AUTHOR / "cwtune-series")
                completed = subprocess.run([link, "1234", "25", "5"], capture_output=True)
                self.same(f"{name}, a link", (0, b""), (completed.returncode, completed.stderr))

    def test_closed(self):
        for name in COMMANDS:
            completed = subprocess.run(command(name, "--help"), stderr=subprocess.PIPE, text=True,
                                       timeout=SECONDS, preexec_fn=lambda: os.close(1))
            self.same(f"{name} without a standard output", (3, "failed: no standard output\n"),
                      (completed.returncode, completed.stderr))

    def test_without_program(self):
        shutil.copytree(AUTHOR, self.folder / "author", ignore=shutil.ignore_patterns("tests"))

        def run_released(words):
            return subprocess.run([sys.executable, *f"{self.folder}/author/{words}".split()],
                                  cwd=TUNING, env={"PATH": str(self.folder)}, capture_output=True,
                                  text=True, timeout=SECONDS)

        for words in RUN_PROGRAM:
            completed = run_released(words)
            self.same(f"{words} without a program", (2, f"error: {NO_PROGRAM}"),
                      (completed.returncode, completed.stderr))
        completed = run_released("cwtune-scores step.cert schedule.csv --template=step.red")
        self.same("cwtune-scores without a program", (
            0, "    STEP: 0 of 1, 1 not known", f"note: {NO_PROGRAM}"),
            (completed.returncode, completed.stdout.splitlines()[-1],
             completed.stderr.splitlines(True)[0]))

    def test_closed_pipe(self):
        reading_end, pipe = os.pipe()
        os.close(reading_end)
        for name, mask in [("a closed pipe", []), ("SIGPIPE is blocked", [signal.SIGPIPE])]:
            completed = subprocess.run(
                command("cwtune-scores", "step.cert", "schedule.csv"), cwd=TUNING, stdout=pipe,
                stderr=subprocess.PIPE, timeout=SECONDS,
                preexec_fn=lambda: signal.pthread_sigmask(signal.SIG_SETMASK, mask))
            self.same(name, (-signal.SIGPIPE, b""), (completed.returncode, completed.stderr))
        os.close(pipe)


def chosen(parser, names):
    """Returns the trials with one of `names` in their names, or all. Refuses an unknown one."""
    suites = map(unittest.TestLoader().loadTestsFromModule, [sys.modules[__name__], *MODULES])
    trials = [trial for suite in suites for of_class in suite for trial in of_class]
    for name in names:
        if not any(name in name_of(trial) for trial in trials):
            parser.error(f"argument -k: no trial {name}; there are "
                         f"{', '.join(map(name_of, trials))}")
    return [trial for trial in trials if not names or any(name in name_of(trial) for name in names)]


def main():
    parser = module_parser("author.tests.run", __doc__)
    parser.add_argument("--store", action="store_true", help="replace the stored results")
    parser.add_argument("-k", action="append", default=[], metavar="NAME",
                        help="play the trials with NAME in their names alone, as spreading.floors, "
                        "or spreading; can be repeated")
    add_built(parser)
    args = parser.parse_args()
    Stored.REPLACES = args.store
    return play(args.program, chosen(parser, args.k))


if __name__ == "__main__":
    run_tool(main)
