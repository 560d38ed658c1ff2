"""Runs the program on pipes, closed streams and links, and kills it.

A reader that goes away ends a run with status 3 and the line `failed: Write`. A standard input that
cannot be read, is a terminal or never ends leads to a fault or a result, in bounded time; a file
above 1 GiB is refused. A word that is not UTF-8 is a usage error. A run that is killed, or that
exceeds the size that it may write, leaves an older certificate as it was. CERT may be a link, and
keeps its permissions; a new one has those that the umask leaves. Expected values follow from
`docs/COMMANDS.md`.
"""
import functools, os, pathlib, resource, shutil, signal, subprocess, tempfile, threading, time

from author.lib.endings import run_tool
from author.lib.words import program_word

from .lib import inputs
from .lib.inputs import RULES
from .lib.play import SECONDS, Place, end, ended, open_terminal, report
from .lib.running import take_interrupts
from .lib.tally import compare, tally

FILES = {
    **inputs.files("dat.red", "imp.red", "one.red", "imps.red", "slow.red", "both.csv", "far.csv",
                   "imps.fight", "one.cert"),
    # equal warriors, so that a long certificate takes one fight
    "many.red": ";@tune K 0 19999 1 0\nMOV 0, 1\n",
    "typo.csv": "opponent,position,first\n0,8,x\n",
}
CERT = FILES["one.cert"]
OLD = CERT + "#"
WARRIORS = ["dat.red", "imp.red"]
TUNE = ["tune", *RULES, "one.red", "both.csv", "CERT", *WARRIORS]
MANY = ["tune", *RULES, "many.red", "both.csv", "CERT", *WARRIORS]
TYPO = ["tune", *RULES, "one.red", "typo.csv", "CERT", *WARRIORS]
CHECK = ["check", *RULES, "one.red", "both.csv", "one.cert", *WARRIORS]
SLOW = ["tune", "--progress", "slow.red", "far.csv", "CERT", "imp.red"]
NOBODY = 65534
NO_WRITE = end(3, err="failed: Write\n")
NO_CERT = end(3, err="failed: Write\nfound: best 0 total 4\n")
NO_CREATE = end(3, err="failed: create CERT\n")
NO_READ = end(3, err="failed: read -\n")
NO_MEMORY = end(3, err="failed: OutOfMemory\n")
NO_TEXT = end(1, err="refused: FightText line 1\n")
TIE = end(0, "tie 1 turns 40\n")
IMP = end(0, "ORG 0\nMOV.I $0, $1\n")
REPORT = report(1, 1, 0, "-", "4 of 6", "2 of 2")
TUNED = end(0, REPORT, CERT=CERT)


def tune_to(cert):
    """Returns the words of a tuning with another name in place of CERT."""
    return [cert if word == "CERT" else word for word in TUNE]


def from_file(place, name, words=(), **streams):
    """Runs with a file or a folder as the standard input."""
    source = os.open(place.folder / name, os.O_RDONLY)
    try:
        return place.run(words, stdin=source, **streams)
    finally:
        os.close(source)


def without(place, number, words):
    """Runs with the standard stream of this number closed, 0, 1 or 2."""
    return place.run(words, preexec_fn=lambda: os.close(number))


def to_broken_pipe(place, words, *names):
    """Runs with standard streams that nobody reads."""
    reader, writer = os.pipe()
    os.close(reader)
    try:
        return from_file(place, "imps.fight", words, **dict.fromkeys(names, writer))
    finally:
        os.close(writer)


def readers_that_go_away(place):
    """Tries runs of which nobody reads a standard stream. Yields name, expected end, end."""
    for words in [[], ["asm", "imp.red"], CHECK, ["tune", "--help"], ["--help"]]:
        name = " ".join(words[:1]) or "fight"
        yield f"nobody reads the output of {name}", NO_WRITE, to_broken_pipe(place, words, "stdout")
    actual = to_broken_pipe(place, TUNE, "stdout")
    yield "nobody reads a report: the certificate is whole", NO_WRITE._replace(
        files=TUNED.files), actual
    for name, words, status in [("a refusal", TYPO, 1), ("a usage error", ["fights"], 2),
                                ("a file that cannot be read", ["asm", "none.red"], 3)]:
        actual = to_broken_pipe(place, words, "stderr")
        yield f"nobody reads the standard error of {name}", end(status), actual
    actual = to_broken_pipe(place, [], "stdout", "stderr")
    yield "nobody reads a result, nor the line that says so", end(3), actual


def read_slowly(path, most, text):
    """Reads at most `most` bytes of a pipe, little by little, into the list `text`, and leaves."""
    with open(path, "rb", buffering=0) as reader:
        while sum(map(len, text)) < most:
            piece = reader.read(min(1000, most))
            if not piece:
                return
            text.append(piece)


def to_named_pipe(place, most, **streams):
    """Writes a long certificate to a named pipe. Returns how the run ended, and what came out."""
    path, text = place.folder / "CERT", []
    os.mkfifo(path)
    reader = threading.Thread(target=read_slowly, args=(path, most, text), daemon=True)
    reader.start()
    actual = place.run(MANY, **streams)
    reader.join(SECONDS)
    path.unlink()
    return actual, b"".join(text)


def certificates_for_pipes(place):
    """Tries a certificate that goes to a named pipe."""
    rows = b"".join(b"same,%d,0\n" % number for number in range(1, 20000))
    whole = b"cwcert,1,20000\nbest,0,4\ncap,0,0:3 1:1\n" + rows
    actual, text = to_named_pipe(place, 2 * len(whole))
    yield "a named pipe gets the whole certificate", (0, b"", whole), (
        actual.status, actual.err, text)
    actual = to_named_pipe(place, 10)
    lost = end(3, err="failed: Write\nfound: best 0 total 4 K=0\n")
    yield "a reader leaves amid the certificate: no report", (lost, whole[:10]), actual
    actual = to_named_pipe(place, 2 * len(whole), preexec_fn=lambda: os.close(1))
    yield "a named pipe is not taken for a closed output", (NO_WRITE, whole), actual


def at_terminal(place, typed):
    """Runs with a terminal as standard input, at which `typed` is typed, or None: it is hung up."""
    with open_terminal() as (screen, program_end):
        process = place.start([], stdin=program_end)
        program_end.close()
        time.sleep(0.2)
        if typed is None:
            screen.close()
        else:
            screen.write(typed)
        return end(*ended(process))


def standard_inputs(place):
    """Tries standard inputs that are not a plain file."""
    yield "a folder as standard input", NO_READ, from_file(place, ".")
    yield "a standard input that is closed", NO_READ, without(place, 0, [])
    fight = FILES["imps.fight"].encode()
    yield "a fight typed at a terminal", TIE, at_terminal(place, fight + b"\x04")
    yield "a terminal that ends at once", NO_TEXT, at_terminal(place, b"\x04")
    hung_up = at_terminal(place, None)
    yield "a terminal that is hung up", True, hung_up in (NO_READ, NO_TEXT) or hung_up


def inputs_without_end(place):
    """Tries inputs that have no end, or nearly none, and a named pipe."""
    yield "an endless standard input", NO_READ, from_file(place, "/dev/zero")
    with subprocess.Popen(["yes"], stdout=subprocess.PIPE) as lines:
        yield "endless lines from a pipe", NO_READ, place.run([], stdin=lines.stdout)
    actual = from_file(place, "/dev/zero", megabytes=512)
    yield "an endless standard input in 512 MB", NO_MEMORY, actual
    actual = place.run(["asm", "/dev/zero"])
    yield "an endless file", end(3, err="failed: read /dev/zero\n"), actual
    (place.folder / "most").touch()
    for size, expected in [(1 << 30, end(1, err="refused: Asm line 0 TextTooLong\n")),
                           ((1 << 30) + 1, end(3, err="failed: read most\n"))]:
        os.truncate(place.folder / "most", size)
        yield f"a file of {size} bytes", expected, place.run(["asm", "most"])
    pipe = place.folder / "pipe"
    os.mkfifo(pipe)
    text = FILES["imp.red"].encode()
    threading.Thread(target=pipe.write_bytes, args=(text,), daemon=True).start()
    yield "a text from a named pipe", IMP, place.run(["asm", "pipe"])


def words_of_bytes(place):
    """Tries words that are not UTF-8, which no case can have."""
    refused = end(2, err="error: a word of the command line is not UTF-8\n")
    for words in [[b"\xff"], [b"asm", b"imp.red\xc3"]]:
        yield f"the words {words}", refused, from_file(place, "imps.fight", words)


def closed_streams(place):
    """Tries whether a closed standard stream is ever a file that the run opens."""
    for name, words in [("a load file", ["asm", "imp.red"]), ("a verdict", CHECK),
                        ("help", ["tune", "--help"])]:
        yield f"{name} without a standard output", NO_WRITE, without(place, 1, words)
    actual = without(place, 1, TUNE)
    yield "a report without a standard output", NO_WRITE._replace(files=TUNED.files), actual
    yield "a refusal without a standard error", end(1), without(place, 2, TYPO)
    yield "a tuning without a standard input", TUNED, without(place, 0, TUNE)


def interrupted(place):
    """Tries whether a tuning that is ended in its search leaves CERT, or none, as it was."""
    for sign in [signal.SIGTERM, signal.SIGINT, signal.SIGKILL]:
        for old in [OLD, None]:
            if old:
                place.write("CERT", old)
            before = place.texts()
            process = place.start(SLOW, preexec_fn=take_interrupts)
            has_begun = process.stderr.readline().startswith(b"0% ")
            process.send_signal(sign)
            actual = (has_begun, *ended(process), place.texts())
            yield f"a tuning ended by {sign.name}", (True, -sign, b"", b"", before), actual
            (place.folder / "CERT").unlink(missing_ok=True)


def limited(place):
    """Tries a tuning that may write only few bytes to a file, or open only one."""
    place.write("CERT", OLD)
    for most in [1, 10, len(CERT) - 1]:
        limit = functools.partial(resource.setrlimit, resource.RLIMIT_FSIZE, (most, most))
        actual = place.run(TUNE, preexec_fn=limit, restore_signals=False)
        yield f"a limit of {most} bytes", NO_CERT, actual
        actual = place.run(TUNE, preexec_fn=limit)
        left = end(-signal.SIGXFSZ, files={"CERT.unfinished-1": CERT[:most]})
        yield f"a limit of {most} bytes that kills", left, actual
    # Leaves one handle after the three streams: a file can be opened, and its handle not copied.
    few = functools.partial(resource.setrlimit, resource.RLIMIT_NOFILE, (4, 4))
    yield "a limit of four open files", NO_CREATE, place.run(TUNE, preexec_fn=few)
    (place.folder / "CERT").unlink()
    yield "a limit of four open files, no CERT", NO_CREATE, place.run(TUNE, preexec_fn=few)


def links(place):
    """Tries a CERT that is a link, in its folder or in another one."""
    path = place.folder / "CERT"
    (place.folder / "link").symlink_to("second")
    (place.folder / "second").symlink_to(path)
    for old in [OLD, None]:
        if old:
            place.write("CERT", old)
            path.chmod(0o2640)
        yield "a link as CERT", TUNED, place.run(tune_to("link"), keep=True)
        kept = [(place.folder / name).is_symlink() for name in ("link", "second")]
        yield "the link stays", [True, True], kept
        if old:
            yield "permissions stay", 0o2640, path.stat().st_mode & 0o7777
        path.unlink()
    inside = place.folder / "inside"
    inside.mkdir()
    (inside / "link").symlink_to("real")
    actual = place.run(tune_to("inside/link"))
    yield "a link leads on from its own folder", end(0, REPORT, files={"inside/real": CERT}), actual


def chains(place):
    """Tries a CERT that as many links lead to as the system follows, and one more."""
    names = ["CERT", *(f"link-{count}" for count in range(1, 42))]
    for name, to in zip(names[1:], names):
        (place.folder / name).symlink_to(to)
    for count, expected in [(40, TUNED), (41, end(3, err="failed: create link-41\n"))]:
        yield f"{count} links to CERT", expected, place.run(tune_to(names[count]))


def certificates_in_place(place):
    """Tries a new CERT, files that other runs have left beside it, and a CERT that may not be
    written, or not read."""
    path = place.folder / "CERT"
    actual = place.run(TUNE, keep=True, preexec_fn=lambda: os.umask(0o027))
    yield "a new file's permissions", (TUNED, 0o640), (actual, path.stat().st_mode & 0o777)
    path.unlink()
    for number in range(1, 1000):
        place.write(f"CERT.unfinished-{number}", "")
    yield "999 files that are left", TUNED, place.run(TUNE)
    place.write("CERT.unfinished-1000", "")
    yield "1000 files that are left", NO_CREATE, place.run(TUNE)
    for number in range(4, 1001):
        (place.folder / f"CERT.unfinished-{number}").unlink()
    place.write("CERT", OLD)
    path.chmod(0o444)
    actual = place.run(TUNE, **as_owner(path, place.program))
    yield "a CERT that may not be written", NO_CREATE, actual
    path.chmod(0o644)
    place.write("CERT", "mine\n")
    path.chmod(0o200)
    actual = place.run(TUNE, **as_owner(path, place.program))
    yield "a CERT that may not be read", end(3, err="failed: read CERT\n"), actual


def as_owner(path, program):
    """Returns the arguments with which the owner of `path` runs the program in that folder.
    Permissions do not bind root, so as root the owner becomes nobody, who may make files in the
    folder, and runs a copy of the program there."""
    if os.geteuid() != 0:
        return {}
    os.chown(path, NOBODY, NOBODY)
    path.parent.chmod(0o777)
    shutil.copy(program, path.with_name("program"))
    for file in path.parent.iterdir():
        if file != path:
            file.chmod(0o755)  # a umask may have made it private
    return {"user": NOBODY, "group": NOBODY, "extra_groups": [], "executable": "./program"}


# Each yields name, expected and actual.
TRIALS = [readers_that_go_away, certificates_for_pipes, standard_inputs, inputs_without_end,
          words_of_bytes, closed_streams, interrupted, limited, links, chains,
          certificates_in_place]


def trials(program):
    """Yields the trials, each group in a folder of its own."""
    for group in TRIALS:
        with tempfile.TemporaryDirectory() as folder:
            yield from group(Place(program, pathlib.Path(folder), FILES))


def main():
    return tally(compare(*trial) for trial in trials(program_word("gate.pipes", __doc__)))


if __name__ == "__main__":
    run_tool(main)
