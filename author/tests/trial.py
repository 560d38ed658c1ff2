"""What all trials share: a folder with the program and the commands, comparisons, and the list of
what failed.
"""
import contextlib, os, pathlib, re, shutil, signal, subprocess, sys, tempfile, time, traceback
import unittest
from typing import NamedTuple

from author.lib.endings import Fault
from author.lib.program import program_of
from gate.lib.play import Place
from gate.lib.tally import LeftOut, compare, tally

AUTHOR = pathlib.Path(__file__).resolve().parents[1]
EXAMPLES = AUTHOR.parent / "examples"
TUNING = EXAMPLES / "tuning"
SECONDS = 120
SEED = 69
# The commands that take no --program.
WITHOUT_PROGRAM = ["cwtune-files", "cwtune-landscape", "cwtune-series"]
# Fails without matplotlib, and with a Python that is too old for the commands.
HAS_MATPLOTLIB = "import matplotlib.pyplot, sys; sys.exit(sys.version_info < (3, 11))"


class Result(NamedTuple):
    """How a command ended: its status, its output, and its standard error without usage lines."""

    status: int
    out: str
    err: str


class Refusal(NamedTuple):
    """A command line to refuse: its words, the status, and its line. There is no output."""

    words: str
    status: int
    line: str


def refusals_of(command, status, pairs):
    """Returns the refusals of a command, given as pairs: the words after it, and the line."""
    return [Refusal(f"{command} {words}".rstrip(), status, line) for words, line in pairs]


def usage_errors(command, pairs):
    """Returns the refusals of command lines that are wrong in themselves, given as pairs: the words
    after the command, and the message."""
    name = command.split()[0]
    return refusals_of(command, 2, [(words, f"{name}: error: {message}")
                                    for words, message in pairs])


def command(name, *words, python=sys.executable):
    return [python, str(AUTHOR / name), *words]


def run(*words, folder=TUNING, python=sys.executable):
    completed = subprocess.run(command(*words, python=python), cwd=folder,
                               stdin=subprocess.DEVNULL, capture_output=True, encoding="utf-8",
                               errors="surrogateescape", timeout=SECONDS)
    stderr = re.sub(r"(?s)^usage:.*?\n(?=\S)", "", completed.stderr)
    return Result(completed.returncode, completed.stdout, stderr)


def python(code, *words, variables=(), **options):
    """Runs code that may import `author`, with some variables more. Returns how it ended."""
    env = {**os.environ, "PYTHONPATH": str(AUTHOR.parent), **dict(variables)}
    return subprocess.run([sys.executable, "-c", code, *words], env=env,
                          **{"capture_output": True, "text": True, **options})


def came_of(function, *words):
    """Returns what a function returns, or its fault as a text."""
    try:
        return function(*words)
    except (Fault, ValueError) as fault:
        return str(fault)


def python_with_matplotlib():
    """Returns a Python that has matplotlib and runs the commands, or None."""
    for path in filter(os.path.exists, (sys.executable, "/usr/bin/python3")):
        if subprocess.run([path, "-c", HAS_MATPLOTLIB], capture_output=True).returncode == 0:
            return path
    return None


@contextlib.contextmanager
def started_command(words, **options):
    """Starts a command, and at the end kills it and what it runs, unless it has ended."""
    with subprocess.Popen(words, start_new_session=True, **options) as job:
        try:
            yield job
        finally:
            if job.poll() is None:
                os.killpg(job.pid, signal.SIGKILL)


def wait_until(is_so, job=None, seconds=SECONDS):
    """Waits until `is_so` returns something true, or a job has ended. Returns the last value."""
    deadline = time.monotonic() + seconds
    while not (value := is_so()) and not (job and job.poll() is not None):
        if time.monotonic() > deadline:
            raise subprocess.TimeoutExpired(job.args if job else "what is waited for", seconds)
        time.sleep(0.002 if job else 0.1)
    return value


def removed(path):
    if path.is_dir() and not path.is_symlink():
        shutil.rmtree(path)
    else:
        path.unlink(missing_ok=True)


def running_in(folder):
    """Returns the words of the processes that are at work below a folder."""
    found = []
    for path in pathlib.Path("/proc").glob("[0-9]*/cwd"):
        with contextlib.suppress(OSError):
            if path.readlink().is_relative_to(folder):
                found.append((path.parent / "cmdline").read_bytes().replace(b"\0", b" ").decode())
    return found


class Trial(unittest.TestCase):
    """A trial: a method `test_..` that is played in a new folder with FILES, in which the program
    and the commands run. OPTIONS follow the name of each command."""

    program, FILES, OPTIONS = None, {}, ()

    def setUp(self):
        self.top = pathlib.Path(self.enterContext(tempfile.TemporaryDirectory()))
        self.settle(self.top)

    def settle(self, folder):
        """Goes on in another folder, with FILES there."""
        self.folder, self.place = folder, Place(self.program, folder, {})
        for name, text in self.FILES.items():
            self.write(name, text)

    def need(self, *tools, **paths):
        """Leaves the trial out if a tool is not on the PATH, or one of `paths` is None."""
        paths = {tool: shutil.which(tool) for tool in tools} | paths
        if missing := [tool for tool, path in paths.items() if not path]:
            self.skipTest(f"no {', no '.join(missing)}")

    def wrong(self, name, faults):
        """Fails with the list of what is wrong with the part `name`, if anything is."""
        with self.subTest(name):
            if faults:
                self.fail("\n".join(faults))

    def same(self, name, expected, came):
        self.wrong(*compare(name, expected, came))

    def refused(self, refusals, **options):
        for words, status, line in refusals:
            self.same(words, (status, "", f"{line}\n"), self.call(words, **options))

    def read(self, name):
        return self.place.read(name)

    def write(self, name, text):
        """Writes a file, in a folder that may be new."""
        (self.folder / name).parent.mkdir(parents=True, exist_ok=True)
        self.place.write(name, text)

    def write_program(self, name, script):
        self.write(name, f"#!/bin/bash\n{script}\n")
        (self.folder / name).chmod(0o755)

    def words(self, line, *words):
        """Returns the words that run a command, of which the first ones are in a line."""
        name, *first = line.split()
        program = [] if name in WITHOUT_PROGRAM else ["--program", self.program]
        return [name, *program, *self.OPTIONS, *first, *words]

    def call(self, line, *words, below="", **options):
        return run(*self.words(line, *words), folder=self.folder / below, **options)

    def started(self, line, *words, **streams):
        return started_command(
            command(*self.words(line, *words)), cwd=self.folder,
            **{"stdout": subprocess.DEVNULL, "stderr": subprocess.DEVNULL, **streams})

    def cwtune(self, words, **options):
        return self.place.run(words, **options)

    def tune(self, *words):
        """Runs `cwtune tune`, which leaves its certificate. Returns its result."""
        end = self.cwtune(["tune", *words], keep=True)
        return Result(end.status, end.out.decode(), end.err.decode())


class Outcome(unittest.TestResult):
    """What came of a trial. `tried` has what was wrong, or left out, as `tally` takes it."""

    def __init__(self):
        super().__init__()
        self.tried = []

    def addSubTest(self, test, part, error):
        wrong = [] if error is None else [broke_off(error[1])]
        if error and isinstance(error[1], test.failureException):
            wrong = str(error[1]).split("\n")
        self.add(part, wrong)

    def addError(self, test, error):
        self.add(test, [broke_off(error[1])])

    addFailure = addError

    def addSkip(self, test, reason):
        self.add(test, LeftOut(reason))

    def add(self, test, wrong):
        self.tried.append((name_of(test), wrong))


def name_of(test):
    """Returns the name of a trial, as `spreading.floors`, or of a part of one."""
    trial = getattr(test, "test_case", test)
    module = type(trial).__module__.rpartition(".")[2].replace("__main__", "run")
    part = f": {test._message}" if trial is not test else ""
    return f"{module}.{trial._testMethodName.removeprefix('test_')}{part}"


def broke_off(fault):
    """Returns where a trial broke off. Any exception may come of a command that failed."""
    lines = [(pathlib.Path(frame.filename), frame.lineno)
             for frame in traceback.extract_tb(fault.__traceback__)]
    of_trials = [(path, number) for path, number in lines
                 if path.parent == AUTHOR / "tests" and path != pathlib.Path(__file__)]
    path, number = (of_trials or lines)[-1]
    return f"broke off in {path.name}, line {number}: {fault!r}"


def tried(trials):
    for trial in trials:
        outcome = Outcome()
        trial.run(outcome)
        yield from outcome.tried


def play(program, trials):
    """Plays trials by a program, which the commands find. Returns the exit status."""
    Trial.program = program_of(program)
    # They look on the PATH, if none is built here.
    os.environ["PATH"] = f"{pathlib.Path(Trial.program).parent}:{os.environ['PATH']}"
    # What runs in the background may be started with Ctrl-C ignored or held back.
    signal.signal(signal.SIGINT, signal.default_int_handler)
    signal.pthread_sigmask(signal.SIG_SETMASK, [])
    # A run that is ended from outside has printed what failed before.
    sys.stdout.reconfigure(line_buffering=True)
    return tally(tried(trials))
