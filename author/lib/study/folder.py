"""Keeps in a folder what a study is made of, the stages that are done, and their commands.

    study.json       the fingerprint of all that the study depends on, and for each stage that is
                     done its result, its commands, and the digests of the files that it wrote
    log.txt          the commands, as a shell in the folder takes them, with their seconds

A stage is done once `study.json` says so, so neither a kill nor a crash leaves half of one. A file
of a stage that is done has to stay as it was.
"""
import contextlib, dataclasses, json, os, pathlib, re, subprocess, sys, time
from typing import Annotated, Any, TypedDict

from ..endings import Fault, end_with_parent, ended_with, quoted, shown, status_of
from ..own_folder import OwnFolder, real_parent
from ..program import DEFAULT
from ..schema import Malformed, checked
from ..spread.parts import Parts
from ..spread.shares import Shares
from ..writing import naming

AUTHOR = pathlib.Path(__file__).resolve().parents[2]
# The names of files that a study makes, by room, and in the last two rooms those that cwtune-spread
# makes for it. `opponents` has the names of the opponents.
NAMES = {
    "": r"(original|template|warrior|start|box|found|winner)\.red|schedule\.csv|log\.txt|"
        r"best\.(cert(\.inputs)?|txt)|(race|challenge)\.jsonl|report\.(json|html)",
    "fresh": r"(\d+|start)(-\d+)?\.(red|cert|cert\.inputs|csv|report|fault)(\.unfinished-\d+)?",
    **{f"best.cert.{name}": rf"spread\.json|{kind.OWN_FILES}|{kind.UNFINISHED_FILES}"
       for name, kind in [("parts", Parts), ("shares", Shares)]},
}
# How notes on the adapted text begin. The author was told that it is adapted, by the name of the
# file that was given.
TOLD_BEFORE = b"note: original.red"
# Which of these names only a kill leaves.
UNFINISHED = r".*(\.\d+\.new|\.unfinished-\d+|\.report|\.fault)"
Count = Annotated[int, range(1 << 53)]
Points = Annotated[str, re.compile("[013]+")]
# The schemas of the results of stages, by the names of these. That of a stage that has no entry
# here is not looked at.
RESULTS = {
    "inputs|schedule|template|winner|report": type(None),
    "best": TypedDict("Best", {"fights": Count, "check": str}),
    r"fresh \d+": dict[str, list[Points]],
    "race": TypedDict("Race", {
        "winner": list[int], "rise": float | None, "points": list[list[Points]] | None,
        "finalists": list[TypedDict("Finalist", {"values": list[int], "percent": float,
                                                 "fights": Count})],
        "settings": Count, "blocks": Count, "fights": Count, "charged": Count,
        "seconds": float}),
    "box": TypedDict("Box", {"settings": Count, "blocks": Count, "fights": Count,
                             "charged": Count, "seconds": float, "check": str | None}),
    "challenge": TypedDict("Challenge", {"best": list[int], "compared": list[list[Points]],
                                         "points": list[list[Points]] | None}),
}


class Command(TypedDict):
    """A command that ran, as a shell takes it, with its seconds and what it said."""

    command: str
    seconds: float
    said: list[str]


class Stage(TypedDict):
    """A stage that is done, with the digests of its files."""

    result: Any
    commands: list[Command]
    files: dict[str, str]


class Fingerprint(TypedDict):
    """The fingerprint of what a study depends on; `inputs` says what else it has."""

    opponents: list[tuple[Annotated[str, re.compile(r"(?!\.\.?$)[^/\0\n]+")], str]]


@dataclasses.dataclass
class Mark:
    """What `study.json` says. With `removing` the study is to be removed, and made anew."""

    by: str
    of: Fingerprint
    stages: dict[str, Stage]
    removing: bool = False


class StudyFolder(OwnFolder):
    """A folder of `cwtune-study`, its `mark`, and the `stage_commands` of the stage that runs."""

    COMMAND, MARK, SCHEMA, THROWN, INSTEAD = "cwtune-study", "study.json", Mark, "it", "--out"

    def __init__(self, given_path, program, fingerprint, anew):
        path = str(real_parent(given_path))
        if os.fsencode(path).decode(errors="replace") != path:
            raise Fault("the name of the folder is not UTF-8, which cwtune wants", 2)
        super().__init__(given_path)
        self.program, self.stage_commands = program, []
        mark = self.read_mark()
        begins = anew or mark is None or mark.removing
        if not begins:
            self.refuse_other_inputs(mark.of, fingerprint, f"{given_path} is of other inputs")
        self.opponents = {name for of in [fingerprint, mark.of if mark else {"opponents": []}]
                          for name, _ in of["opponents"]}
        self.refuse_strange()
        if begins and mark:
            self.write_mark(dataclasses.replace(mark, stages={}, removing=True))
            self.remove_all()
        # What a run that was killed may leave, but for that of `cwtune-spread`. The names of
        # opponents are the user's.
        for name, pattern in self.patterns():
            with self.room(name) as room:
                if room and name in ("", "fresh"):
                    room.remove(f"(?=(?:{pattern})$){UNFINISHED}")
        self.mark = Mark(self.maker(), fingerprint, {}) if begins else mark
        self.write_mark(self.mark)

    def rooms(self):
        return {**NAMES, "opponents": "|".join(map(re.escape, self.opponents))}

    def read_mark(self):
        """Returns the mark. Refuses one with a malformed result of a stage."""
        mark = super().read_mark()
        try:
            for name, stage in mark.stages.items() if mark else ():
                checked(result_schema(name), stage["result"], f"stages.{name}.result")
        except Malformed as fault:
            raise Fault(f"{self.given_path}/{self.MARK}: {fault}", 2) from None
        return mark

    def stage(self, name, run_stage, *files):
        """Returns the result of a stage. Unless it and `files` exist, `run_stage` makes them."""
        digests = {file: self.digest(file) for file in files}
        if name not in self.mark.stages or None in digests.values():
            self.stage_commands = []
            # Through JSON, as a repeated command reads it: lists for tuples, texts for keys.
            result = checked(result_schema(name), json.loads(json.dumps(run_stage())), name)
            digests = {file: self.digest(file) for file in files}
            self.mark.stages[name] = {"result": result, "commands": self.stage_commands,
                                      "files": digests}
            self.write_mark(self.mark)
            self.write_log()
        for file, digest in digests.items():
            if digest is None or self.mark.stages[name]["files"].get(file) != digest:
                raise Fault(f"{self.given_path}/{file} is not as it was written: give --anew to "
                            "begin again", 2)
        return self.mark.stages[name]["result"]

    @contextlib.contextmanager
    def reading(self, name):
        """Gives a block the object of a JSON file. The fault of the block names the file."""
        try:
            yield self.load(name, dict)
        except (LookupError, TypeError, ValueError, ArithmeticError):
            raise Fault(f"{self.given_path}/{name} is malformed: give --anew to begin again",
                        2) from None

    def commands(self):
        return [command for stage in self.mark.stages.values() for command in stage["commands"]]

    def write_log(self):
        lines = [f"# {self.maker()}: commands to type in this folder"]
        for entry in self.commands():
            lines += [f"{entry['command']}  # {entry['seconds']:.1f} seconds",
                      *(f"# {shown(line)}" for line in entry["said"])]
        self.write("log.txt", "".join(f"{line}\n" for line in lines).encode(
            errors="surrogateescape"))

    def log_command(self, words, output_name, seconds, messages=()):
        """Adds a command to the log, with the default program as `cwtune`."""
        if self.program == DEFAULT:
            words = ["cwtune" if word == self.program else word for word in words
                     if word != f"--program={self.program}"]
        command = " ".join(map(quoted, words)) + (f" > {quoted(output_name)}" if output_name
                                                  else "")
        self.stage_commands.append({"command": command, "seconds": round(seconds, 2),
                                    "said": list(messages)})

    def log_note(self, text, seconds):
        self.stage_commands.append({"command": f"# {text}", "seconds": round(seconds, 2),
                                    "said": []})

    def run(self, words, output_name, logs_messages=True):
        """Runs a command in the folder, with its output in a file there. Its fault is this
        command's. With `logs_messages` it logs the lines of standard error."""
        began_at = time.monotonic()
        argv = words
        if words[0].startswith("cwtune-"):
            argv = [sys.executable, str(AUTHOR / words[0]), *words[1:]]
        with self.whole_file(output_name, "wb") as file:
            status, messages = run_in(self.path, argv, file, logs_messages)
            if status < 0:
                raise ended_with(words[0], status)
            if status:
                sys.exit(status_of(status))
        self.log_command(words, output_name, time.monotonic() - began_at, messages)


def result_schema(stage):
    return next((schema for names, schema in RESULTS.items() if re.fullmatch(names, stage)), Any)


def run_in(folder, argv, output, returns_messages):
    """Runs a command. Returns its status, and with `returns_messages` the lines that it wrote on
    standard error, which are passed on but for those that the author was told."""
    messages = []
    with subprocess.Popen(argv, cwd=folder, stdin=subprocess.DEVNULL, stdout=output,
                          stderr=subprocess.PIPE if returns_messages else None,
                          preexec_fn=end_with_parent) as job:
        try:
            for line in job.stderr or ():
                with naming("standard error"):
                    sys.stderr.buffer.write(line * (not line.startswith(TOLD_BEFORE)))
                    sys.stderr.flush()
                messages.append(line.decode(errors="surrogateescape").rstrip("\n"))
            return job.wait(), messages
        finally:
            if job.poll() is None:
                job.terminate()
                job.wait()
