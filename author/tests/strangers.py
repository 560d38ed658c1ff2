"""Gives the commands names, texts and files that a stranger chose, and looks what they leave."""
import ast, contextlib, fcntl, os, pathlib, re, shutil, signal, struct, subprocess, termios, time
from unittest import mock

from author.lib import writing
from author.lib.endings import Fault, quoted
from author.lib.spread.hosts import HostJobs
from gate.lib import play

from .origins import note
from .trial import AUTHOR, SECONDS, TUNING, Refusal, Trial, command, python, wait_until

ESCAPE = "\x1b]0;x\x07"
NOT_SHOWN = "(a terminal cannot show it)"
FILES = {
    "t.red": ";@tune K 0 1 1 0\nJMP 1-K\n", "-t.red": ";@tune K 0 1 1 0\nJMP 1-K\n",
    "-w.red": "K EQU 1\nJMP K\n", "--program=x.red": "DAT 0\n", "dat.red": "DAT 0\n",
    "s.csv": "opponent,position,first\n0,400,c\n", "-s.csv": "opponent,position,first\n0,400,c\n",
    "x.red": "#!/bin/sh\ntouch ran\n", "step.cert": (TUNING / "step.cert").read_bytes(),
}
STUDY = "cwtune-study --hill=nano --rounds=1 --fresh=2 --jobs=1"
REPORT = "vectors 2\ncandidates 2\nbest 0\nconstants K={}\ntotal 1 of 3\nfights 2 of 2\n"
# Runs a command with a limit of its memory, and prints its status and its greatest memory. A child
# of this process would begin with the memory of this one.
MEASURE = """import os, resource, sys
limit, *words = sys.argv[1:]
if not (pid := os.fork()):
    os.dup2(os.open(os.devnull, os.O_WRONLY), 1)
    if int(limit):
        resource.setrlimit(resource.RLIMIT_AS, (int(limit), int(limit)))
    os.execv(words[0], words)
status = os.waitstatus_to_exitcode(os.waitpid(pid, 0)[1])
print(status, resource.getrusage(resource.RUSAGE_CHILDREN).ru_maxrss << 10)
"""
# A process id above all that Linux gives.
NO_PROCESS = 2 ** 22 + 1
DROPPED = """import signal, time
from author.lib.endings import run_tool
class Ending:
    def __del__(self):
        signal.raise_signal(signal.SIGTERM)
def main():
    Ending()
    time.sleep(9)
run_tool(main)
"""
EARLY = """import signal, sys
from author.lib import start
class Finder:
    def find_spec(self, name, *_):
        if name == "author.lib.endings":
            signal.raise_signal(signal.SIGINT)
sys.meta_path.insert(0, Finder())
start.run("cwtune-files")
"""
READ = """from author.lib import endings, files, watching; import sys
watching.PACE.pause = 0; sys.argv = ['f', 'big.cert']; endings.run_tool(files.main)
"""
# Closes the terminal of a command amid its rows, with the default for SIGHUP or with SIG_IGN.
CLOSED = """import os, signal, sys; screen, terminal = os.openpty(); os.login_tty(terminal)
from author.lib import endings, watching; watching.PACE.pause = 0
signal.signal(signal.SIGHUP, getattr(signal, sys.argv[1]))
def rows():
    yield from range(2000)
    os.close(screen)
    yield from range(2000)
endings.run_tool(lambda: list(watching.watched(rows(), 4000, 'rows')) and 0)
"""
# Runs a command for a user without a home.
HOMELESS = """import os, pwd; from author.lib import start
for name in ["HOME", "XDG_CACHE_HOME"]: os.environ.pop(name, None)
pwd.getpwuid = {}.__getitem__; start.run("cwtune-adapt")
"""
# Starts a command as a Python 3.10 does.
OLD = """import runpy, sys; sys.version_info = (3, 10, 4, 'final', 0)
sys.path.insert(0, sys.argv[1]); runpy.run_path(sys.argv[2], run_name='__main__')
"""


def runs(pid):
    with contextlib.suppress(OSError):
        return pathlib.Path(f"/proc/{pid}/stat").read_text().rpartition(")")[2].split()[0] != "Z"
    return False


class Strangers(Trial):
    """Names, texts and files that a stranger chose."""

    FILES = FILES

    def test_dashes(self):
        (self.folder / "x.red").chmod(0o755)
        self.tune("--", "-t.red", "-s.csv", "-cert", "--program=x.red")
        for words in [
            f"{STUDY} -- -t.red --program=x.red dat.red",
            f"{STUDY} -- -w.red --program=x.red K=0:1",
            "cwtune-spread --jobs=1 -- -t.red -s.csv -c --program=x.red",
            "cwtune-seek --fights=1000 -- -t.red -s.csv --program=x.red",
            "cwtune-scores -- -cert -s.csv", "cwtune-vary -- -w.red K=0:1",
            "cwtune-holdout --rounds=2 -- -t.red -cert --program=x.red",
            "cwtune-warrior -- -t.red -cert", "cwtune-files -- -t.red --program=x.red",
            "cwtune-spread t.red s.csv c dat.red --jobs=1 dat.red",
            "cwtune-warrior t.red --core=8000 -- -cert",
        ]:
            self.same(words, (0, False), (self.call(words).status, (self.folder / "ran").exists()))

    def test_terminals(self):
        """Gives the commands names and texts that would steer a terminal."""
        self.write("esc.red", f";@tune A{ESCAPE} 0 1 1 0\nDAT 0\n")
        self.write("math.red", ";@tune $\\frac$ 0 1 1 0\nDAT 0\n")
        self.write("equ.red", f"K EQU 1{ESCAPE}\nDAT K\n")
        for name, text in [("CERT.1.report", REPORT.format(f"0{ESCAPE}")), ("CERT.1.fault", ""),
                           ("CERT.1", "cwcert,1,2\nbest,0,1\ncap,0,0:1\nsame,1,0\n")]:
            self.write(name, text)
        self.refused([
            *(Refusal(words.format(name), 1, f"refused: {name}: line 1 is not a range line: ;@tune "
                      "NAME LOW HIGH STEP START, with START one of the values")
              for words in ["cwtune-files {}", "cwtune-scores --template {} CERT.1 s.csv",
                            "cwtune-landscape {} CERT.1 x.svg"]
              for name in ["esc.red", "math.red"]),
            Refusal("cwtune-vary equ.red K=1:2", 1, f"refused: equ.red, line 1: {NOT_SHOWN} is not "
                    "a plain number, so K can have no range; it has K.1=1, K.2=0"),
            Refusal("cwtune-spread --merge=1 t.red s.csv CERT dat.red", 3, "failed: no result for "
                    "part 1 of 1 (CERT.1.report is cut, or not there)")])
        name = f"no{ESCAPE}.red"
        self.same("a folder of such a name", (0, False), (
            (end := self.call(f"{STUDY} t.red dat.red --out", f"{name}.study")).status,
            "\x1b" in end.out + end.err))
        for words in ["cwtune-files", "cwtune-landscape t.red CERT.1"]:
            result = self.call(words, name)
            self.same(f"{words} of a name", (True, False), (
                result.status > 0, "\x1b" in result.out + result.err))
        for word in [name, "a\rb.red", "it's %s \\ \x9b.red"]:
            typed = subprocess.run(["sh", "-c", f"printf %s {quoted(word)}"], capture_output=True)
            self.same(f"log.txt of {word!r}", (word, True),
                      (os.fsdecode(typed.stdout), quoted(word).isprintable()))

    def test_hostile_inputs(self):
        """Gives `cwtune-scores` a CERT.inputs that names a device, a FIFO, or is one."""
        self.tune("t.red", "s.csv", "cert", "dat.red")
        right, path = self.read("cert.inputs").decode(), self.folder / "cert.inputs"
        os.mkfifo(self.folder / "fifo")
        for folder, size, name in [("/dev", 0, "zero"), ("/dev", 9, "zero"),
                                   (self.folder, 0, "fifo"), (self.folder, 4096, ".")]:
            text = re.sub(r"(?m)^template .*$", f"template {size} {'0' * 64} {name}", right)
            self.write("cert.inputs", re.sub(r"(?m)^folder .*$", f"folder {folder}", text))
            self.refused([Refusal("cwtune-scores cert s.csv", 2, f"error: {folder}/{name} is not "
                                  "the template of the tuning")])
        for what, make in [("a folder", os.mkdir), ("a FIFO", os.mkfifo),
                           ("a device", lambda path: os.symlink("/dev/zero", path))]:
            path.unlink()
            make(path)
            status, out, err = self.call("cwtune-scores cert s.csv")
            self.same(f"a CERT.inputs that is {what}", (
                0, True, note("cert.inputs is not a regular file")),
                (status, out.startswith("best setting "), err))
            with contextlib.suppress(OSError):
                path.rmdir()
                path.touch()
        path.unlink()
        path.write_text("x" * (1 << 21))
        self.same("a CERT.inputs of 2 MiB", note("cert.inputs is malformed"),
                  self.call("cwtune-scores cert s.csv").err)

    def test_endless(self):
        (self.folder / "all").mkdir()
        os.mkfifo(self.folder / "all/a.red")
        os.symlink("/dev/zero", self.folder / "zero.red")
        self.refused(Refusal(words, 2, f"error: {name} is not a regular file") for words, name in [
            (f"{STUDY} t.red all", "all/a.red"), (f"{STUDY} t.red zero.red", "zero.red"),
            (f"{STUDY} zero.red dat.red", "zero.red"),
            *((words.format("all/a.red"), "all/a.red") for words in [
                "cwtune-vary {}", "cwtune-files {}", "cwtune-scores {} s.csv",
                "cwtune-scores step.cert {}", "cwtune-landscape {} step.cert x.svg"]),
            ("cwtune-spread t.red s.csv CERT all/a.red", "all/a.red"),
            ("cwtune-spread --check-only t.red s.csv zero.red dat.red", "zero.red")])
        for name in ["C.1", "C.1.report", "C.1.fault"]:
            self.write("C.1.report", REPORT.format(0))
            self.write("C.1.fault", "")
            (self.folder / name).unlink(missing_ok=True)
            os.mkfifo(self.folder / name)
            self.refused([Refusal("cwtune-spread --merge=1 t.red s.csv C dat.red", 2,
                                  f"error: {name} is not a regular file")])
            (self.folder / name).unlink()
        self.tune("t.red", "s.csv", "cert", "dat.red")
        os.mkfifo(self.folder / "cert.1.check.fault")
        self.refused([Refusal("cwtune-spread --check-only --merge=1 t.red s.csv cert dat.red", 2,
                              "error: cert.1.check.fault is not a regular file")])

    def test_encodings(self):
        """Prints names that the encoding of the streams does not have."""
        for name in ["\U0001f600.red", "\udcff.red"]:
            self.write(name, "DAT 0\n")
            for encoding in ["latin-1", "euc_jp", "ascii"]:
                with mock.patch.dict(os.environ, {"PYTHONIOENCODING": encoding}):
                    status, out, _ = self.call("cwtune-files", name)
                    *_, err = self.call("cwtune-files", f"no{name}")
                shown = "\\U0001f600.red" if name[0] != "\udcff" else name
                self.same(f"{name!r} in {encoding}", (0, shown, f"failed: no{shown}"), (
                    status, out.split(":")[0], err.rpartition(":")[0]))


class Memory(Trial):
    FILES = FILES

    def big_certificate(self, rows):
        """Writes a certificate of as many settings, with 20 fights each, and its template."""
        def row(setting):
            points = "3" * 20 if setting == 0 else str(setting * 7919 ** 4)[:20].translate(
                str.maketrans("0123456789", "0130130130"))
            return " ".join(f"{index}:{digit}" for index, digit in enumerate(points))

        self.write("big.cert", f"cwcert,1,{rows}\nbest,0,60\n" + "".join(
            f"cap,{setting},{row(setting)}\n" for setting in range(rows)))
        self.write("big.csv", "opponent,position,first\n" + "0,400,c\n" * 20)
        self.write("big.red", f";@tune A 0 {rows // 100 - 1} 1 0\n;@tune B 0 99 1 0\nDAT A, B\n")

    def peak(self, words, megabytes=0):
        """Returns status, standard error and most bytes of memory, which `megabytes` may bound."""
        completed = python(MEASURE, str(megabytes << 20), *command(*words.split()), cwd=self.folder)
        status, most = completed.stdout.split()
        return int(status), completed.stderr, int(most)

    def test_memory(self):
        """Reads a certificate of 4 MB, and with too little memory for it."""
        self.big_certificate(40000)
        size = (self.folder / "big.cert").stat().st_size
        for small, big in [
            ("cwtune-files t.red", "cwtune-files big.cert"),
            (f"cwtune-scores step.cert {TUNING}/schedule.csv",
             "cwtune-scores big.cert big.csv --template big.red")]:
            (*_, least), (status, _, most) = map(self.peak, (small, big))
            self.same(f"{big} takes three times the size of a certificate at most",
                      (0, True), (status, most - least < 3 * size))
        refused = {self.peak("cwtune-files big.cert", megabytes)[:2]
                   for megabytes in range(16, 64, 2)}
        self.same("without memory", True, (3, "failed: out of memory\n") in refused)
        self.same("and never a traceback", [], [end for end in refused if "Traceback" in end[1]])

    def test_shown_while_read(self):
        """Reads a certificate for so long that it has to be shown."""
        self.big_certificate(10000)
        completed = python(READ, cwd=self.folder)
        self.same("how far it is", (0, "rows of big.cert: 1024 of 10000"), (
            completed.returncode, completed.stderr.splitlines()[0]))
        self.write("big.cert", self.read("big.cert") + b"x\n")
        with play.open_terminal() as (screen, program_end):
            fcntl.ioctl(program_end, termios.TIOCSWINSZ, struct.pack("4H", 9, 20, 0, 0))
            python(READ, cwd=self.folder, capture_output=False, stdout=subprocess.DEVNULL,
                   stderr=program_end)
            program_end.close()
            lines = play.shown(screen).decode().split("\r")
        self.same("a terminal's line is cut to its width, and cleared before a fault", (
            "rows of big.cert: 1\x1b[K", "\x1b[Krefused: big.cert: not a certificate\n"), (
                lines[1], lines[-1]))


class Endings(Trial):
    """How commands end, and what they leave."""

    FILES = FILES

    def test_unforeseen(self):
        code = "from author.lib.endings import run_tool\nrun_tool(lambda: {}['x'])"
        for value, status, begin in [("", 3, "failed: KeyError in <string>, line 2:"),
                                     ("1", 1, "Traceback")]:
            completed = python(code, variables={"CWTUNE_TRACEBACK": value})
            self.same(f"a fault, CWTUNE_TRACEBACK={value}", (status, begin, not value), (
                completed.returncode, completed.stderr[:len(begin)],
                completed.stderr.count("\n") == 1))

    def test_interrupts(self):
        """Interrupts a command in a destructor, and while it imports its modules."""
        for code in [DROPPED, EARLY]:
            completed = python(code, preexec_fn=lambda: signal.signal(signal.SIGINT, signal.SIG_DFL)
                               if code == EARLY else None)
            self.same("it ends, and says nothing", (-signal.SIGINT, ""),
                      (completed.returncode, completed.stderr))

    def test_closed_terminals(self):
        for action, status in [("SIG_DFL", -signal.SIGINT), ("SIG_IGN", 0)]:
            self.same(f"SIGHUP, {action}", status, python(CLOSED, action).returncode)

    def test_old_pythons(self):
        """Starts commands as a Python 3.10 does, and parses as 3.6 what is read before that."""
        scripts = sorted(AUTHOR.glob("cwtune-*"))
        for path in [*scripts, AUTHOR / "lib/__init__.py", AUTHOR / "lib/start.py"]:
            ast.parse(path.read_text(), feature_version=(3, 6))
        for path in scripts:
            completed = python(OLD, str(AUTHOR), str(path))
            self.same(f"{path.name} in Python 3.10", (
                3, "", f"failed: {path.name} needs Python 3.11, and this is Python 3.10\n"),
                (completed.returncode, completed.stdout, completed.stderr))

    def test_homeless(self):
        """Runs a command that looks for pMARS, for a number that is no user's."""
        completed = python(HOMELESS, f"--program={self.program}", "t.red", cwd=self.folder)
        self.same("no home", (0, FILES["t.red"]), (completed.returncode, completed.stdout))

    def pids(self):
        return list(map(int, (self.read("pids") or b"").split()))

    def ended_by(self, signal_number, words):
        """Sends a command a signal once a stand-in for `cwtune`, which does not end, tunes. Returns
        the status, and which stand-ins are left running after a second."""
        self.write_program("stuck", f"""case "$1 $*" in
tune*4294967295*|asm*|settings*|--version*) exec {self.program} "$@";; esac
echo $$ >> {self.folder}/pids; exec sleep 99""")
        self.write("pids", "")
        with self.started(words, "--program=./stuck") as job:
            wait_until(self.pids, job)
            time.sleep(0.5)  # others begin, too
            job.send_signal(signal_number)
            status = job.wait(SECONDS)
        deadline = time.monotonic() + 1
        while (left := list(filter(runs, self.pids()))) and time.monotonic() < deadline:
            time.sleep(0.01)
        for pid in left:
            os.kill(pid, signal.SIGKILL)
        return status, bool(self.pids()), left

    def test_orphans(self):
        """Kills and hangs up commands while `cwtune` runs for them."""
        for signal_number, status in [(signal.SIGKILL, -signal.SIGKILL),
                                      (signal.SIGHUP, -signal.SIGINT)]:
            for words in ["cwtune-seek t.red s.csv dat.red",
                          "cwtune-seek --jobs=2 t.red s.csv dat.red",
                          f"{STUDY} --anew --exact=1 t.red dat.red",
                          f"{STUDY} --anew t.red dat.red",
                          "cwtune-spread --anew --all --jobs=1 t.red s.csv CERT dat.red"]:
                self.same(f"{signal_number.name} of {words}", (status, True, []),
                          self.ended_by(signal_number, words))

    def test_no_guard(self):
        """Starts GNU parallel, but cannot start its guard."""
        self.write_program("parallel", "exec /bin/sleep 99")
        jobs = object.__new__(HostJobs)
        jobs.folder = mock.Mock(path=self.folder, file=lambda *_: self.folder)
        with (mock.patch.dict(os.environ, {"PATH": str(self.folder)}),
              contextlib.suppress(FileNotFoundError)):
            jobs.start([], subprocess.DEVNULL, subprocess.DEVNULL)
        jobs.stop()
        self.same("GNU parallel is ended", -signal.SIGKILL, jobs.parallel.returncode)

    def test_left_files(self):
        """Finds what killed runs have left, and what only looks so."""
        kept = [f"x.svg.{os.getppid()}.new", f"y.svg.{NO_PROCESS}.new", f"xxsvg.{NO_PROCESS}.new",
                "x.svg.new"]
        for name in [*kept, f"x.svg.{NO_PROCESS}.new"]:
            self.write(name, "<svg")
        os.symlink("t.red", self.folder / f"x.svg.{NO_PROCESS + 1}.new")
        with self.assertRaisesRegex(Fault, "^x: the same$"), writing.naming("x"):
            raise shutil.SameFileError("the same")
        with writing.whole_file(self.folder / "x.svg") as file:
            file.write("<svg>")
        self.same("what a killed run has left of a picture is removed", sorted([
            *kept, "x.svg", f"x.svg.{NO_PROCESS + 1}.new"]),
            sorted(name for name in os.listdir(self.folder) if "svg" in name))
        kept = [f"cwtune-pid-{os.getpid()}-abc", f"cwtune-{NO_PROCESS}-nop", "cwtune-x"]
        for name in [*kept, f"cwtune-pid-{NO_PROCESS}-abc"]:
            self.write(f"tmp/{name}/t.red", "DAT 0\n")
        temporary = self.folder / "tmp"
        kept.append(f"cwtune-pid-{NO_PROCESS}-link")
        os.symlink(self.folder, temporary / kept[-1])
        with mock.patch.dict(os.environ, {"TMPDIR": str(temporary)}):
            status = self.call("cwtune-vary -- -w.red K=0:1").status
        self.same("and of temporary folders", (0, sorted(kept)), (
            status, sorted(os.listdir(temporary))))
        self.same("what a link leads to stays", True, (self.folder / "t.red").exists())
