"""Ends the commands: after a fault, as a run of `cwtune` ended, or by a signal."""
import codecs, contextlib, ctypes, errno, io, os, pathlib, re, shlex, signal, subprocess, sys
import traceback

# The first word of a fault on standard error, by the status of the command.
STATUS_WORDS = {1: "refused", 2: "error", 3: "failed"}
# What steers a terminal.
STEERING = re.compile(r"[\x00-\x08\x0b-\x1f\x7f-\x9f]")
LIBC, PR_SET_PDEATHSIG = ctypes.CDLL(None), 1
PID = os.getpid()


class Fault(Exception):
    """Why a command ends. Status 1: a file is refused; 2: usage error; 3: I/O error."""

    def __init__(self, message, status=1):
        super().__init__(message)
        self.status = status


class ClosedStream(io.RawIOBase):
    """A standard stream that was closed before the command began."""

    def writable(self):
        return True

    def write(self, _):
        raise Fault("no standard output", 3)


def open_streams():
    """Opens the standard streams that are closed, so that no other file takes their numbers.

    A write to a closed standard output is then a fault; to a closed standard error, it is lost.
    Standard output takes the name of any file, whatever bytes it has.
    """
    while (descriptor := os.open(os.devnull, os.O_RDWR)) < 3:
        pass
    os.close(descriptor)
    if sys.stdout is None:
        sys.stdout = io.TextIOWrapper(ClosedStream(), write_through=True)
    if sys.stderr is None:
        sys.stderr = open(os.devnull, "w")
    for stream in (sys.stdout, sys.stderr):
        stream.reconfigure(errors="names")


def encoded(error):
    """Encodes the first character that a stream cannot: a byte of a name as it is, and another one
    as a backslash and its number. The stream calls it again for the rest."""
    first = UnicodeEncodeError(error.encoding, error.object, error.start, error.start + 1,
                               error.reason)
    try:
        return codecs.lookup_error("surrogateescape")(first)
    except UnicodeEncodeError:
        return codecs.lookup_error("backslashreplace")(first)


codecs.register_error("names", encoded)
# At import: what is opened next must not get the number of a closed stream.
open_streams()


def can_be_shown(text):
    """Returns whether nothing of a line steers a terminal."""
    return "\n" not in text and not STEERING.search(text)


def shown(line):
    """Returns a line, or what `cwtune` prints in its place if it would steer a terminal."""
    return line if can_be_shown(line) else "(a terminal cannot show it)"


def escaped(text):
    """Returns a text with a backslash and a number for each character that steers a terminal."""
    return STEERING.sub(lambda match: f"\\x{ord(match[0]):02x}", text)


def quoted(word):
    """Returns a word as a shell takes it, without a byte that steers a terminal."""
    if can_be_shown(word):
        return shlex.quote(word)
    octal = "".join(f"\\{byte:03o}" for byte in os.fsencode(word))
    return f"\"$(printf '{octal}')\""


def run_tool(main):
    """Runs a command, and ends it with a line and a status after a fault.

    A closed pipe and Ctrl-C end it by their signals and without a word, as they end `cat`. What
    `kill` and a terminal that is closed send ends it as Ctrl-C does, unless `nohup` or another
    parent has it ignored.
    """
    for signal_number in (signal.SIGINT, signal.SIGTERM, signal.SIGHUP):
        if signal.getsignal(signal_number) != signal.SIG_IGN:
            signal.signal(signal_number, signal.default_int_handler)
    sys.unraisablehook = interrupt_again
    try:
        try:
            status = main()
        except SystemExit as end:
            status = end.code
        sys.stdout.flush()
    except Fault as fault:
        status = say(STATUS_WORDS[fault.status], str(fault), fault.status)
    except BrokenPipeError:
        status = end_by(signal.SIGPIPE)
    except KeyboardInterrupt:
        status = end_by(signal.SIGINT)
    except Exception as error:
        if os.environ.get("CWTUNE_TRACEBACK") == "1":
            raise
        status = say("failed", words_of(error), 3)
    try:
        sys.stdout.flush()
    except OSError:  # Python would write it once more at its end, and end with the status 120
        os.dup2(os.open(os.devnull, os.O_WRONLY), 1)
    sys.exit(status)


def words_of(error):
    """Returns what a fault says that no command foresees."""
    if isinstance(error, MemoryError):
        return "out of memory"
    if isinstance(error, subprocess.TimeoutExpired):
        words = " ".join(map(str, error.cmd))
        return f"{words} took more than {error.timeout:.0f} seconds"
    if isinstance(error, OSError):
        # A copy names two files; the second is the one that is written.
        name = error.filename2 or error.filename or lost_stream()
        shown_name = f"{os.fsdecode(name) if isinstance(name, bytes) else name}: " if name else ""
        return shown_name + (error.strerror or str(error))
    frame = traceback.extract_tb(error.__traceback__)[-1]
    return (f"{type(error).__name__} in {pathlib.Path(frame.filename).name}, line {frame.lineno}: "
            f"{' '.join(str(error).split())[:200]} (a fault of this command: with "
            "CWTUNE_TRACEBACK=1 it says more)")


def lost_stream():
    """Returns `standard output` if what was written there is lost, else an empty text."""
    try:
        sys.stdout.flush()
    except OSError:
        return "standard output"
    return ""


def say(word, message, status):
    """Writes a line on standard error, whatever bytes a name in it has. Returns the status, which
    alone reports the fault if the line cannot be written."""
    try:
        print(f"{word}: {escaped(message)}", file=sys.stderr, flush=True)
    except OSError:
        sys.stderr = open(os.devnull, "w")
    return status


def note(text):
    """Writes a note on standard error, escaped."""
    say("note", text, 0)


@contextlib.contextmanager
def losing_lines():
    """Runs a block that writes on standard error. Once a terminal is closed, all is lost."""
    try:
        yield
    except OSError as error:
        if error.errno not in (errno.EIO, errno.ENOTTY):  # closed now, or before
            raise
        sys.stderr = open(os.devnull, "w")


def tell(line):
    """Writes a line on standard error, escaped."""
    with losing_lines():
        print(escaped(line), file=sys.stderr, flush=True)


def status_of(returncode):
    """Returns the status of a command whose `cwtune` has no result: its `returncode` if that is 1
    or 2, else 3, since it then was killed, or ended with 0 where it had to refuse something."""
    return returncode if returncode in (1, 2) else 3


def how_ended(returncode):
    return f"ended by signal {-returncode}" if returncode < 0 else f"ended with status {returncode}"


def ended_with(program, returncode):
    """Returns the fault of a run of a program of which no more is known than its status."""
    return Fault(f"{program} {how_ended(returncode)}", status_of(returncode))


def end_as(program, returncode, stderr):
    """Ends as a run of `cwtune` did: with its status and what it wrote, or a fault if nothing."""
    sys.stderr.buffer.write(stderr)
    if returncode < 0 or not stderr:
        raise ended_with(program, returncode)
    sys.exit(status_of(returncode))


def fault_of(completed):
    """Returns the fault of a run of `cwtune` without its first word, which the status says, and
    then the notes that came before it. If it wrote nothing, the fault names its status."""
    status = status_of(completed.returncode)
    stderr = "\n" + completed.stderr.decode(errors="surrogateescape").strip("\n")
    notes, _, fault = stderr.partition(f"\n{STATUS_WORDS[status]}: ")
    message = (fault + notes).strip()
    return (Fault(message, status) if message
            else ended_with(completed.args[0], completed.returncode))


def end_by(signal_number):
    """Ends the command by a signal, also if the signal was blocked."""
    signal.signal(signal_number, signal.SIG_DFL)
    signal.pthread_sigmask(signal.SIG_UNBLOCK, [signal_number])
    os.kill(os.getpid(), signal_number)


def interrupt_again(unraisable):
    """Has an interrupt come again that came where Python drops exceptions: in a destructor, or in
    what it calls back when an object is gone, of which matplotlib has thousands."""
    if unraisable.exc_type is not KeyboardInterrupt:
        sys.__unraisablehook__(unraisable)
        return
    signal.signal(signal.SIGALRM, signal.default_int_handler)
    signal.setitimer(signal.ITIMER_REAL, 0.01)


def end_with_parent():
    """Has the kernel kill the new process when this one ends, even if this one is killed."""
    LIBC.prctl(PR_SET_PDEATHSIG, signal.SIGKILL)
    if os.getppid() != PID:  # it has ended already
        os._exit(1)
