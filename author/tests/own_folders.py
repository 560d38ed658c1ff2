"""Gives `cwtune-spread` and `cwtune-study` work folders out of a stranger's archive, and kills them
at each file that they remove.

`python3 -m author.tests.own_folders --count 10000 PROGRAM` plays as many damaged folders, and with
`--kills` kills a study at all its places; `run` plays fewer of both.
"""
import json, os, random, shutil, signal, subprocess, sys, tempfile

from author.lib import endings, spread, study
from author.lib.endings import STATUS_WORDS, run_tool
from author.lib.regular import digest_of
from author.lib.schema import from_json
from author.lib.words import add_built, add_number, module_parser

from .spread_trial import DECOY, SpreadTrial
from .study_trial import FEW, StudyTrial
from .trial import SECONDS, SEED, came_of, command, play, removed

FAULTS = tuple(f"{word}: " for word in STATUS_WORDS.values())
STUDY = ["t.red", "all"]
PARTS = ["--jobs=1", "--parts=4", *DECOY]
SHARES = ["--jobs=1", "--shares=4", "--check-only", *DECOY]
REFUSED_MARK = "CERT.parts is not a folder of this cwtune-spread, and is not touched (spread.json: "


def replaced(path, make):
    removed(path)
    make(path)


def link_to(target):
    return lambda path: path.symlink_to(target)


def victim_of(path):
    """Returns the folder of the user that is beside the work folder of a path."""
    while not (path / "victim").is_dir():
        path = path.parent
    return path / "victim"


class Fuzz:
    """Work folders, each damaged in one place by chance, and what a command makes of them."""

    def __init__(self, trial, module, name, words):
        self.trial, self.module, self.name = trial, module, name
        self.words = ["--program", trial.program, *words]
        self.path, self.kept = trial.folder / name, trial.folder / f"kept.{name}"
        self.path.rename(self.kept)
        self.names = [str(path.relative_to(self.kept)) for path in sorted(self.kept.rglob("*"))]
        self.right = self.run_in_copy(lambda: None)

    def run_in_copy(self, damage):
        """Damages a copy of the folder. Returns status, output but `fights`, standard error."""
        removed(self.path)
        if self.name == "CERT.parts":
            removed(self.trial.folder / "CERT")
        if self.name == "CERT.shares":
            self.trial.tune(*DECOY)
        shutil.copytree(self.kept, self.path, symlinks=True)
        damage()
        status, out, err = in_process(self.module, self.words, self.trial.folder)
        return status, [line for line in out.splitlines() if line[:7] != "fights "], err

    def play(self, dice):
        name = dice.choice([".", *self.names])
        how, make = dice.choice(DAMAGES)
        outside = self.trial.texts_of("victim")

        def damage():
            path = self.path if name == "." else self.path / name
            text = path.read_bytes() if path.is_file() else b""
            replaced(path, lambda path: make(path, text, dice))

        came = self.run_in_copy(damage)
        wrong = [word for word in ["Traceback", "a fault of this command"] if word in came[2]]
        if self.trial.texts_of("victim") != outside or len(os.listdir(
                self.trial.folder / "victim")) != len(outside):
            wrong.append("it touched what is outside")
        if came[0] not in (0, 1, 2, 3) or came[0] and came[2].count("\n") != 1:
            wrong.append(f"ended with {came}")
        if came[0] == 0 and how != "random JSON" and came[1] != self.right[1]:
            wrong.append(f"expected {self.right}, came {came}")
        self.trial.wrong(f"{self.name}: {name} is {how}", wrong)


def random_json(path, text, dice):
    try:
        value = json.loads(text)
    except ValueError:
        value = {}
    path.write_text(json.dumps(changed(value, dice)))


def changed(value, dice):
    """Returns a value with another one somewhere in it."""
    if isinstance(value, (dict, list)) and value and dice.random() < 0.8:
        value = value.copy()
        key = dice.choice(list(value) if isinstance(value, dict) else range(len(value)))
        value[key] = changed(value[key], dice)
        return value
    return dice.choice([None, True, 0, -1, 2.5, 10 ** 12, 1e308, "", "x", "../x", [], {}, [[1]],
                        {"x": 1}, [0] * 9, "9" * 5000, ["x", "y"], json.loads("[" * 90 + "]" * 90)])


def as_another(path, text, _):
    path.write_bytes(text)
    if os.geteuid() == 0:
        os.chown(path, 12345, 12345)


def as_device(path, text, _):
    if os.geteuid() == 0:
        os.mknod(path, 0o20666, os.makedev(1, 5))  # /dev/zero
    else:
        path.symlink_to("/dev/zero")


# What a case puts in the place of a file or a folder: a function of its path, its text and dice.
DAMAGES = [
    ("a link to a file", lambda path, *_: path.symlink_to(victim_of(path) / "secret")),
    ("a link to no file", lambda path, *_: path.symlink_to(victim_of(path) / "none")),
    ("a link to a folder", lambda path, *_: path.symlink_to(victim_of(path))),
    ("another name of a file", lambda path, *_: os.link(victim_of(path) / "secret", path)),
    ("a FIFO", lambda path, *_: os.mkfifo(path)), ("a device", as_device),
    ("another's file", as_another), ("a folder", lambda path, *_: path.mkdir()),
    ("gone", lambda path, *_: None), ("empty", lambda path, *_: path.write_bytes(b"")),
    ("cut", lambda path, text, dice: path.write_bytes(text[:dice.randint(0, len(text))])),
    ("random bytes", lambda path, text, dice: path.write_bytes(dice.randbytes(99))),
    *[("random JSON", random_json)] * 4,
]


def in_process(module, words, folder):
    """Runs a command in a copy of this process, which saves its start. Returns its result."""
    with tempfile.TemporaryFile() as out, tempfile.TemporaryFile() as err:
        sys.stdout.flush()
        if not (pid := os.fork()):
            signal.alarm(30)
            os.chdir(folder)
            os.dup2(out.fileno(), 1)
            os.dup2(err.fileno(), 2)
            sys.argv = [f"cwtune-{module.__name__.rpartition('.')[2]}", *words]
            endings.PID = os.getpid()
            try:
                run_tool(module.main)
            except SystemExit as end:
                sys.stdout.flush()
                os._exit(end.code or 0)
            finally:
                os._exit(99)
        status = os.waitstatus_to_exitcode(os.waitpid(pid, 0)[1])
        out.seek(0)
        err.seek(0)
        return status, *(file.read().decode(errors="replace") for file in (out, err))


class OwnFolders(SpreadTrial, StudyTrial):
    """Work folders of a stranger: COUNT are damaged, and kills come at each STEP-th removal."""

    FILES = {**SpreadTrial.FILES, **StudyTrial.FILES, **{
        f"victim/{name}": "mine, without a line feed"
        for name in ["secret", "imp.red", "1.red", "1.done", "t.red"]}}
    COUNT, STEP = 300, 11

    def untouched(self, name, expected, came):
        """Compares, and also the folder of the user with what it was."""
        files = {self.folder / file: text.encode() for file, text in self.FILES.items()
                 if file.startswith("victim/")}
        self.same(name, (expected, files), (came, self.texts_of("victim")))

    def test_links_of_studies(self):
        self.same("a study", 0, self.study(*STUDY).status)
        shutil.copytree(self.folder / "t.study", self.folder / "kept")
        secret = {"opponents": [["secret", ""]]}
        for name, target, options, changes in [
            ("template.red", "../victim/secret", [], {"stages": {}}),
            ("report.html", "../victim/none", [], {}),
            ("opponents", "../victim", [], {"stages": {}}),
            ("opponents", "../victim", ["--anew"], {"of": secret}),
            ("opponents/imp.red", "../../victim/secret", [], {"stages": {}}),
            ("fresh", "../victim", ["--anew"], {}),
            ("fresh/1.red", "../../victim/secret", ["--anew"], {}),
            ("best.cert.parts", "../victim", ["--anew"], {}),
            ("log.txt.1.new", "../victim/secret", [], {}),
        ]:
            shutil.rmtree(self.folder / "t.study")
            shutil.copytree(self.folder / "kept", self.folder / "t.study")
            self.mark("t", **changes)
            replaced(self.folder / "t.study" / name, link_to(target))
            self.untouched(f"{name}, a link to {target} {options}", (
                2, "", f"error: t.study/{name} is a link, and is not touched\n"),
                self.study(*options, *STUDY))
        replaced(self.folder / "t.study", link_to("kept"))
        for options in [[], ["--anew"]]:
            self.same(f"a link to a study {options}", (
                2, "", "error: t.study is a link, and is not touched\n"),
                self.study(*options, *STUDY))
        (self.folder / "below").symlink_to(self.folder)
        self.same("a path through a link", 0, self.study("--out=below/kept", *STUDY).status)

    def test_links_of_spreads(self):
        for name, target in [("whole.cert", "../victim/secret"), ("4.done", "../victim/none"),
                             ("spread.json", "../victim/secret"), ("1.2.red", "../victim/secret")]:
            self.unfinished(*PARTS)
            replaced(self.folder / "CERT.parts" / name, link_to(target))
            for options in [[], ["--anew"]]:
                status, out, err = self.spread(*options, *PARTS)
                self.untouched(f"{name}, a link {options}", (2, "", True), (
                    status, out, name in err and err.count("\n") == 1))
        for words, name in [(PARTS, "CERT.parts"), (SHARES, "CERT.shares")]:
            self.tune(*DECOY)
            replaced(self.folder / name, link_to("victim"))
            self.untouched(f"{name} is a link", (
                2, "", f"error: {name} is a link, and is not touched\n"), self.spread(*words))
            (self.folder / name).unlink()

    def test_forged(self):
        """Writes into marks, and into what pieces have left, what no command writes."""
        self.unfinished(*PARTS)
        whole = json.loads(self.read("CERT.parts/spread.json"))
        for entries, line in [
            ({"of": 1}, f"{REFUSED_MARK}of: not an object)"),
            *(({"parts": number}, f"{REFUSED_MARK}parts: not 1 to 1000000)")
              for number in [0, -1, 100000000]),
            *(({"parts": number}, f"{REFUSED_MARK}parts: not a whole number)")
              for number in [2.5, "x"]),
            ({"parts": 127}, "CERT.parts/spread.json: more parts than settings"),
            ({"count": 10 ** 9}, f"{REFUSED_MARK}count: not 1 to 1000000)"),
            ({"count": 1000}, "CERT.parts/spread.json: count: not 126"),
            ({"piece": []}, f"{REFUSED_MARK}piece: not a text)"),
        ]:
            self.write("CERT.parts/spread.json", json.dumps(whole | entries))
            self.same(f"a mark with {entries}", (2, "", f"error: {line}\n"),
                      self.spread("--jobs=1", *DECOY))
        self.write("CERT.parts/spread.json", json.dumps(whole))
        for text, fault in [
            ("1", "not an object"), ('"x"', "not an object"), ("[" * 100000, "nested too deep"),
            ('{"report": {"best": "0"}, "cert": null}', "report: not a text"),
            ('{"report": "best 0", "cert": null}', "report: not of its form"),
            ('{"report": ""}', "no entry `cert`"),
            ('{"report": "", "cert": "x"}', "cert: not of its form"),
        ]:
            self.write("CERT.parts/1.done", text)
            self.same(f"what part 1 has left is {text[:40]}", (
                2, "", f"error: CERT.parts/1.done is malformed ({fault}): remove it to run part 1 "
                "again\n"), self.spread(*PARTS))
        for name in ["spread.json", "1.done", "t.red"]:
            self.unfinished(*PARTS)
            replaced(self.folder / "CERT.parts" / name, os.mkfifo)
            status, out, err = self.spread(*PARTS)
            self.same(f"{name} is a FIFO", (2, "", True), (
                status, out, err.startswith("error: ") and name in err))

    def test_schemas(self):
        for schema, text, fault in [
            (int, "1.0", "not a whole number"), (int, "true", "not a whole number"),
            (float, "NaN", "not a number"), (float, "1e999", "not a number"),
            (list[int], '[1, "x"]', "[1]: not a whole number"),
            (dict[str, str], "[]", "not an object"), (tuple[int, str], "[1]", "not a list of 2"),
            (str | None, "1", "not a text"), (str, '"\\', "not JSON"),
            (int, "9" * 5000, "not JSON"),
        ]:
            self.same(f"{text[:20]} as {schema}", fault, came_of(from_json, schema, text))
        path = str(self.folder / "fifo")
        os.mkfifo(path)
        self.same("the digest of a FIFO", f"{path} is not a regular file",
                  came_of(digest_of, path))

    def test_forged_reports(self):
        self.study(*STUDY)
        stages = self.mark("t")["stages"]
        for text in ["1", "{}", "[" * 100000, json.dumps({"ranking": [1]})]:
            self.write("t.study/report.json", text)
            digest = digest_of(self.folder / "t.study/report.json")
            stages["report"]["files"]["report.json"] = digest
            self.mark("t", stages=stages)
            status, _, err = self.study(*STUDY)
            self.same(f"a report.json that is {text[:40]}", (
                2, "error: t.study/report.json is malformed: give --anew to begin again\n"),
                (status, err))
        for name, result, fault in [
            ("best", {"fights": "9", "check": ""}, ".fights: not a whole number"),
            ("fresh 1", {"0": ["2"]}, ".0[0]: not of its form"), ("winner", [], ": not null"),
        ]:
            self.mark("t", stages=stages | {name: stages[name] | {"result": result}})
            self.same(f"a stage {name} with {result}", (
                2, "", f"error: t.study/study.json: stages.{name}.result{fault}\n"),
                self.study(*STUDY))

    def test_files_of_races(self):
        """Puts links, and what never ends, where a study keeps what a race has played."""
        words = ["--exact=9", "--fights=1000", "p.red", "all"]
        self.study(*words)
        self.mark("p", stages={"inputs": self.mark("p")["stages"]["inputs"]})
        for name, what, make in [
            ("race.jsonl", "a link", link_to("../victim/secret")),
            ("race.jsonl", "a FIFO", os.mkfifo),
            ("race.jsonl", "another name of a file", lambda path: os.link(
                self.folder / "victim/secret", path)),
            ("challenge.jsonl", "a link", link_to("../victim/none")),
            ("challenge.jsonl", "a folder", os.mkdir),
        ]:
            path = self.folder / "p.study" / name
            replaced(path, make)
            self.untouched(f"{name} is {what}", (
                2, "", f"error: p.study/{name} is {what}, and is not touched\n"),
                self.study(*words))
            removed(path)
        self.same("without them the study goes on", 0, self.study(*words).status)

    def test_missing_copies(self):
        """Removes copies and results, as a kill of an older version may have."""
        unbroken = self.found(DECOY, self.spread(*PARTS))
        for names in [["t.red"], ["cwtune", "s.csv"], ["o1.red", "1.cert"]]:
            self.unfinished(*PARTS)
            for name in names:
                (self.folder / "CERT.parts" / name).unlink(missing_ok=True)
            self.same(f"without {names} the parts go on", unbroken,
                      self.found(DECOY, self.spread(*PARTS)))

    def test_missing_files(self):
        self.study(*STUDY)
        report = self.report("t")
        for name in ["opponents/imp.red", "box.red", "fresh/1.csv", "best.cert"]:
            (self.folder / "t.study" / name).unlink()
            self.same(f"without {name} the study goes on", (0, True, report), (
                self.study(*STUDY).status, self.read(f"t.study/{name}") is not None,
                self.report("t")))

    def at_unlink(self, number, signal_name, *words):
        """Sends a command a signal at the unlink of this number. Returns whether that ended it."""
        inject = f"inject=unlink,unlinkat:signal={signal_name}:when={number}"
        argv = ["strace", "-o", "/dev/null", "-e", "trace=unlink,unlinkat", "-e", inject,
                *command(*self.words(*words))]
        return subprocess.run(argv, cwd=self.folder, stdin=subprocess.DEVNULL, timeout=SECONDS,
                              capture_output=True).returncode < 0

    def test_kills_of_spreads(self):
        """Kills a tuning and its check at each file that they remove, and repeats the command."""
        self.need("strace")
        words = ["--check", "--shares=1", "--jobs=1", "--parts=2", *DECOY[:4]]
        self.write("schedule.csv", "opponent,position,first\n0,3670,c\n")
        unbroken = self.spread(*words)
        (self.folder / "CERT").unlink()
        number, met = 0, True
        while met:
            number += 1
            for signal_name in ["KILL", "INT"]:
                met = self.at_unlink(number, signal_name, "cwtune-spread", *words)
                came = self.spread(*words)
                self.same(f"{signal_name} at unlink {number}", (*unbroken[::2], True), (
                    *came[::2], unbroken.out.splitlines()[:5] == came.out.splitlines()[:5]))
                (self.folder / "CERT").unlink(missing_ok=True)
        self.same("kills met a spread that removes its folders", True, number > 15)

    def test_kills_of_studies(self):
        """Kills a study that begins anew at some removals, and repeats the command."""
        self.need("strace")
        words = [*FEW, "--rounds=1", "--fresh=1", *STUDY]
        self.study(*words)
        report = self.report("t")
        files = sum(path.is_file() for path in (self.folder / "t.study").rglob("*"))
        shutil.copytree(self.folder / "t.study", self.folder / "kept")
        number, met = 1, True
        while met:
            signal_name = ["KILL", "INT"][number % 2]
            shutil.rmtree(self.folder / "t.study")
            shutil.copytree(self.folder / "kept", self.folder / "t.study")
            met = self.at_unlink(number, signal_name, "cwtune-study", "--anew", *words)
            status, _, err = self.study(*words)
            faults = [line for line in err.splitlines() if line.startswith(FAULTS)]
            self.same(f"{signal_name} at unlink {number}", (0, [], report), (
                status, faults, self.report("t")))
            number += self.STEP
        self.same("kills met a study that removes its files", True, number > files)

    def test_fuzz(self):
        self.unfinished(*PARTS)
        kinds = [Fuzz(self, spread, "CERT.parts", PARTS)]
        self.tune(*DECOY)
        self.unfinished(*SHARES, kind="shares")
        kinds.append(Fuzz(self, spread, "CERT.shares", SHARES))
        self.study(*STUDY)
        kinds.append(Fuzz(self, study, "t.study", [*FEW, *STUDY]))
        for index in range(self.COUNT):
            kinds[index % 3].play(random.Random(SEED + index))


def main():
    parser = module_parser("author.tests.own_folders", __doc__)
    add_number(parser, "--count", "N", 300, "how many damaged folders")
    parser.add_argument("--kills", action="store_true",
                        help="kill a study at each file that it removes, too")
    add_built(parser)
    args = parser.parse_args()
    OwnFolders.COUNT, OwnFolders.STEP = args.count, 1
    names = ["fuzz", "kills_of_studies"] if args.kills else ["fuzz"]
    return play(args.program, map(OwnFolders, [f"test_{name}" for name in names]))


if __name__ == "__main__":
    run_tool(main)
