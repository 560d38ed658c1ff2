"""Runs the program in a folder, and says how the run ended and which files it changed."""
import contextlib, pathlib, pty, re, subprocess, tempfile
from typing import NamedTuple

from . import cert_inputs

SECONDS = 60
# The exit status of a run that writes a line with such a first word.
STATUSES = {"refused": 1, "rejected": 1, "error": 2, "failed": 3}
# Of a longer file the size is compared, and not the text.
LONGEST = 1 << 24


class End(NamedTuple):
    """How a run ends: its status, what it writes, and the files that it makes, changes or removes.

    `files` has the text of each of these, None for one that is gone. A run that takes too long has
    the status "no end".
    """

    status: object
    out: bytes
    err: bytes
    files: dict


def end(status, out="", err="", files=None, **more):
    """Returns an `End`; texts may be `str`. `CERT="..."` is short for a file of that name."""
    files = {name: as_bytes(text) for name, text in {**(files or {}), **more}.items()}
    return End(status, as_bytes(out), as_bytes(err), files)


def status_of(text):
    """Returns the exit status of a run that writes a text: that of the last line which begins with
    a word of STATUSES, or 0."""
    words = re.findall(rf"(?m)^({'|'.join(STATUSES)})[: ]", text)
    return STATUSES[words[-1]] if words else 0


def report(*values):
    """Returns the report of a tuning, with these values in its lines."""
    names = ["vectors", "candidates", "best", "constants", "total", "fights"]
    return "".join(f"{name} {value}\n" for name, value in zip(names, values, strict=True))


def as_bytes(text):
    return text.encode() if isinstance(text, str) else text


class Place:
    """A folder with files, in which the program runs."""

    def __init__(self, program, folder, files):
        self.program, self.folder = program, pathlib.Path(folder)
        for name, text in files.items():
            self.write(name, text)

    def write(self, name, text):
        (self.folder / name).write_bytes(as_bytes(text))

    def read(self, name):
        """Returns the text of a file, or None if there is no such file."""
        path = self.folder / name
        return path.read_bytes() if path.exists() else None

    def start(self, words, megabytes=None, **streams):
        """Starts the program. Streams that are not given are an empty input and pipes."""
        given = {"stdin": subprocess.DEVNULL, "stdout": subprocess.PIPE, "stderr": subprocess.PIPE}
        limit = ["sh", "-c", f'ulimit -v {megabytes << 10}; exec "$0" "$@"'] if megabytes else []
        return subprocess.Popen([*limit, self.program, *words], cwd=self.folder,
                                **{**given, **streams})

    def run(self, words, text=None, keep=False, seconds=SECONDS, terminal=False, **streams):
        """Runs the program with `text` as its standard input. Returns its end.

        With `terminal` its standard error is one, and `err` of the end is what it showed. A right
        CERT.inputs is left out of the end. After the run all files are as before it, unless `keep`.
        """
        before = self.texts()
        if text is not None:
            streams["stdin"] = subprocess.PIPE
        with contextlib.ExitStack() as stack:
            if terminal:
                screen, streams["stderr"] = stack.enter_context(open_terminal())
            status, out, err = ended(self.start(words, **streams), as_bytes(text), seconds)
            if terminal:
                streams["stderr"].close()
                err = shown(screen)
        after = self.texts()
        changed = {name: after.get(name) for name in {**before, **after}
                   if before.get(name) != after.get(name)}
        reported = {name: text for name, text in changed.items()
                    if not self.is_right_inputs(name, text)}
        if not keep:
            self.put_back(before, changed)
        return End(status, out, err, reported)

    def is_right_inputs(self, name, text):
        """Returns whether a file is a right CERT.inputs, beside a certificate."""
        cert = self.folder / name.removesuffix(cert_inputs.SUFFIX)
        return (name.endswith(cert_inputs.SUFFIX) and text is not None and cert.is_file()
                and cert_inputs.is_right(text, cert.read_bytes(), self.folder))

    def texts(self):
        """Returns the texts of the regular files in the folder by their names."""
        return {str(path.relative_to(self.folder)): text_of(path)
                for path in self.folder.rglob("*") if path.is_file() and not path.is_symlink()}

    def put_back(self, texts, names):
        """Gives the files with these names the texts that they had, and removes the others."""
        for name in names:
            if name in texts:
                self.write(name, texts[name])
            else:
                (self.folder / name).unlink()


def ended(process, text=None, seconds=SECONDS):
    """Waits for a process. Returns its status and what it wrote, b"" for what is not a pipe."""
    try:
        out, err = process.communicate(text, timeout=seconds)
        return process.returncode, out or b"", err or b""
    except subprocess.TimeoutExpired:
        process.kill()
        process.communicate()
        return "no end", b"", b""


@contextlib.contextmanager
def open_terminal():
    """Gives a block the two ends of a terminal: the screen, and the program's. The block closes the
    latter once the program has it: then the screen ends when the program does."""
    with contextlib.ExitStack() as stack:
        yield [stack.enter_context(open(end, "r+b", buffering=0)) for end in pty.openpty()]


def shown_next(screen):
    """Returns what a terminal shows next, or nothing once nobody writes to it."""
    try:
        return screen.read(65536)
    except OSError:  # the other end is closed
        return b""


def shown(screen):
    """Returns what a terminal shows until nobody writes to it."""
    return b"".join(iter(lambda: shown_next(screen), b"")).replace(b"\r\n", b"\n")


def text_of(path):
    size = path.stat().st_size
    return path.read_bytes() if size <= LONGEST else f"{size} bytes".encode()


@contextlib.contextmanager
def in_folder(program, files):
    """Makes a new folder with these files."""
    with tempfile.TemporaryDirectory() as folder:
        yield Place(program, folder, files)


def play(program, words, files, **more):
    """Runs the program in a new folder with these files. Returns its end."""
    with in_folder(program, files) as place:
        return place.run(words, keep=True, **more)
