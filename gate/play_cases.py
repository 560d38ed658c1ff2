"""Plays cases of input and output.

gate/cases/README.md says what a case has. One with another key, or without `name`, is refused.
"""
import functools, os, pathlib, re, shlex, string, tempfile, tomllib

from author.lib.endings import Fault, run_tool
from author.lib.program import program_of
from author.lib.words import add_built, module_parser
from author.lib.writing import naming

from .lib import inputs
from .lib.play import Place, end, report, status_of
from .lib.running import side_by_side
from .lib.tally import tally

FILLED = ["stdin", "out", "err", "err_begins", "cert"]
# The types of the keys of a file, a case, its tables in `each` or `runs`, and a long file.
SHARED = {"files": dict, "folders": list, "words": dict, "usual": str, "case": list}
CASE = {
    "name": str, "words": str, "files": dict, "folders": list, "long": dict, "stdin": str,
    "stdin_from": str, "out_to": str, "seconds": int, "megabytes": int,
    "status": int, "out": str, "err": str, "report": list, "out_begins": str, "err_begins": str,
    "out_contains": list, "out_is": str, "cert": str, "accepted": bool,
    "each": list, "runs": list, "values": dict, "fill": dict, "terminal": bool,
}
TABLE = {key: kind for key, kind in CASE.items() if key not in ("each", "runs")}
LONG = {"head": str, "text": str, "times": int, "tail": str}
SECONDS = 120
# How deep names may be: their texts may have names, too.
DEEPEST = 3
PROGRESS_AT_TERMINAL = rb"\r\x1b\[\?7l[^\r\n]*\x1b\[K\x1b\[\?7h|\r\x1b\[K"
PROGRESS = rb"(?m)^\d+% .*\n"


def check_keys(table, kinds, needed, where):
    """Refuses a table of which a key is not as it has to be."""
    for key in sorted({*needed, *table}):
        if key not in table:
            raise Fault(f"{where}: no key `{key}`")
        if key not in kinds:
            raise Fault(f"{where}: unknown key `{key}`")
        if type(table[key]) is not kinds[key]:
            raise Fault(f"{where}: `{key}` is of type {type(table[key]).__name__}, not "
                        f"{kinds[key].__name__}")


def variants(case, key):
    """Returns the case, or one for each table of its list `each` or `runs`."""
    if key not in case:
        return [case]
    cases = []
    for number, table in enumerate(case[key], 1):
        name = f"{case['name']} ({'table' if key == 'each' else 'run'} {number})"
        check_keys(table, TABLE, [], name)
        texts = [*table.get("fill", {}).values(), *table.get("files", {}).values()]
        label = table.get("name") or table.get("words") or repr(texts)[:100]
        merged = {"name": f"{name}: {label}"}
        for part in ["files", "fill", "long"]:
            merged[part] = case[part] | table.get(part, {})
        cases.append(case | table | merged)
    if not cases:
        raise Fault(f"{case['name']}: `{key}` is empty")
    return cases


def valued(case):
    """Returns the case, or one for each row of its `values`: a text, or one for each name."""
    cases, values = [], case.get("values", {})
    if len(values) > 1:
        raise Fault(f"{case['name']}: `values` has more than one key")
    for names, rows in values.items():
        for number, row in enumerate(rows, 1):
            texts = row if isinstance(row, list) else [row]
            name = f"{case['name']} ({number}: {' '.join(texts)[:60]!r})"
            if len(texts) != len(names.split()):
                raise Fault(f"{name}: not a text for each of `{names}`")
            cases.append(case | {"name": name,
                                 "fill": case["fill"] | dict(zip(names.split(), texts))})
    return cases or [case]


def fill(text, names, where):
    """Puts in what names stand for, which may have names in turn, up to DEEPEST deep."""
    for _ in range(DEEPEST + 1):
        before, text = text, string.Template(text).safe_substitute(names)
        if text == before:
            return text
    raise Fault(f"{where}: names are more than {DEEPEST} deep: {text[:200]!r}")


def long_text(long):
    middle = "".join(long["text"].replace("$n", str(n)) for n in range(long["times"]))
    return long.get("head", "") + middle + long.get("tail", "")


def words_of(case):
    """Returns the words of a case, parted. No name may be left in them."""
    if "words" not in case:
        raise Fault(f"{case['name']}: `words` is missing")
    text = fill(case["words"], case["shared_words"] | case["fill"], case["name"])
    try:
        return shlex.split(string.Template(text).substitute())
    except KeyError as error:
        raise Fault(f"{case['name']}: no words for `${error.args[0]}`") from None
    except ValueError as error:
        raise Fault(f"{case['name']}: `words`: {error}") from None


def filled(case):
    """Returns the case with its words parted, its long files made, and names put in by `fill`."""
    words = words_of(case)
    put_in = functools.partial(fill, names=case["fill"], where=case["name"])
    named = {os.path.normpath(word) for word in [*words, case.get("stdin_from", "")]}
    files = inputs.files(*named & inputs.FILES.keys())
    files |= {name: put_in(text) for name, text in case["files"].items()}
    for name, long in case["long"].items():
        check_keys(long, LONG, ["text", "times"], case["name"])
        files[name] = long_text(long)
    if "out_is" in case and case["out_is"] not in files:
        raise Fault(f"{case['name']}: no file {case['out_is']}")
    if "report" in case:
        if "out" in case or len(case["report"]) != 6:
            raise Fault(f"{case['name']}: `report` has six values, in place of `out`")
        case = case | {"out": report(*case["report"])}
    made = {key: put_in(case[key]) for key in FILLED if key in case}
    status = status_of("\n".join(made.get(key, "") for key in ("out", "err", "err_begins")))
    return {"status": status} | case | made | {"files": files, "words": words}


def ways(case):
    """Returns the case, or one for each way in which a case of a terminal is played."""
    if not case.get("terminal"):
        return [case]
    name, words = case["name"], case["words"]
    faults = "".join(re.findall(r"(?m)^(?:refused|failed|found).*\n", case.get("err", "")))
    piped = case | {"terminal": False}
    cases = [case | {"name": f"{name} (at a terminal)"},
             piped | {"name": f"{name} (--explain)", "words": [words[0], "--explain", *words[1:]]},
             piped | {"name": f"{name} (in a pipe)", "err": faults}]
    if words[0] in ("tune", "check"):
        cases.append(piped | {"name": f"{name} (--progress)", "err": faults,
                              "words": [words[0], "--progress", *words[1:]]})
    return cases


def read_cases(path):
    """Returns the cases of a file, each with all that the cases of the file share."""
    try:
        table = tomllib.loads(path.read_text("utf-8"))
    except ValueError as error:
        raise Fault(f"{path}: {error}") from None
    check_keys(table, SHARED, ["case"], path)
    if twice := table.get("files", {}).keys() & inputs.FILES.keys():
        raise Fault(f"{path}: gate/inputs.toml has `{min(twice)}`, too")
    cases = []
    for case in table["case"]:
        name = f"{path}: {case.get('name')}"
        check_keys(case, CASE, ["name"], name)
        case["name"] = name
        if "usual" in table:
            case.setdefault("words", table["usual"])
        case["shared_words"] = inputs.WORDS | table.get("words", {})
        case["files"] = table.get("files", {}) | case.get("files", {})
        case["folders"] = table.get("folders", []) + case.get("folders", [])
        case = {"long": {}} | case | {"fill": inputs.TEXTS | case.get("fill", {})}
        cases += [way for run in variants(case, "runs") for table in variants(run, "each")
                  for single in valued(table) for way in ways(filled(single))]
    if len({case["name"] for case in cases}) < len(cases):
        raise Fault(f"{path}: two cases have one name")
    return cases


def streams_of(case, place):
    """Returns the streams of a case that are no pipes, opened."""
    opened = {}
    for stream, key, flag in [("stdin", "stdin_from", os.O_RDONLY),
                              ("stdout", "out_to", os.O_WRONLY)]:
        if key in case:
            with naming(f"{case['name']}: {case[key]}"):
                opened[stream] = os.open(place.folder / case[key], flag)
    return opened


def run(place, case):
    """Runs the program as a case says. Returns its end, without the progress."""
    opened = streams_of(case, place)
    try:
        actual = place.run(case["words"], None if "stdin" in opened else case.get("stdin", ""),
                           keep=True, seconds=case.get("seconds", SECONDS),
                           terminal=case.get("terminal", False), megabytes=case.get("megabytes"),
                           **opened)
    finally:
        for stream in opened.values():
            os.close(stream)
    if case.get("terminal"):
        return actual._replace(err=re.sub(PROGRESS_AT_TERMINAL, b"", actual.err))
    if "--progress" in case["words"] and "terminal" in case:
        return actual._replace(err=re.sub(PROGRESS, b"", actual.err))
    return actual


def shown(text):
    """Decodes an output, of which any bytes can be shown."""
    return text.decode(errors="backslashreplace")


def text_differences(case, key, actual):
    """Returns how the output `actual` differs from what the case says of it."""
    begins, parts = case.get(f"{key}_begins", ""), case.get(f"{key}_contains", [])
    whole = case["files"][case["out_is"]] if key == "out" and "out_is" in case else case.get(key)
    wrong = [f"{key}: expected lines with {part!r}" for part in parts if part not in actual]
    if begins and not (actual.startswith(begins) and actual.endswith("\n")):
        wrong.append(f"{key}: expected lines that begin with {begins!r}")
    if (whole is not None or not (begins or parts)) and actual != (whole or ""):
        wrong.append(f"{key}: expected {whole or ''!r}")
    return [f"{line}, got {actual!r}"[:2000] for line in wrong]


def check_differences(place, case):
    """Checks CERT. Returns how that ends otherwise than the case says."""
    best = re.search(r"^best (\d+)\n(?:.*\n)*total (\d+) ", case.get("out", ""), re.M)
    if not best:
        return ["`out` has no best setting"]
    words = ["check", *(word for word in case["words"][1:] if not word.startswith("--cache"))]
    expected = end(0, f"accepted best {best[1]} total {best[2]}\n")
    actual = place.run(words, seconds=SECONDS)
    return [] if actual == expected else [f"its check: expected {expected}, got {actual}"[:2000]]


def differences(program, case):
    """Plays a case. Returns how it ended otherwise than the case says, a line for each."""
    with tempfile.TemporaryDirectory() as folder:
        for name in case["folders"]:
            pathlib.Path(folder, name).mkdir()
        place = Place(program, folder, case["files"])
        actual = run(place, case)
        wrong = text_differences(case, "out", shown(actual.out))
        wrong += text_differences(case, "err", shown(actual.err))
        if actual.status != case["status"]:
            wrong.append(f"status: expected {case['status']}, got {actual.status}")
        files = {name: None if text is None else shown(text) for name, text in actual.files.items()}
        if case.get("accepted") and files.pop("CERT", None):
            wrong += check_differences(place, case)
        elif case.get("accepted"):
            wrong.append("CERT: expected one, got none")
    expected = {"CERT": case["cert"]} if "cert" in case else {}
    if expected.get("CERT") == case["files"].get("CERT"):
        expected = {}
    return wrong + [f"file {name}: expected {expected.get(name)!r}, got {files.get(name)!r}"[:2000]
                    for name in sorted({**expected, **files})
                    if expected.get(name) != files.get(name)]


def main():
    parser = module_parser("gate.play_cases", __doc__)
    add_built(parser)
    parser.add_argument("cases", nargs="*", type=pathlib.Path, metavar="CASES",
                        help="files such as gate/cases/asm.toml [default: all of gate/cases/]")
    args = parser.parse_args()
    program, folder = program_of(args.program), pathlib.Path(__file__).resolve().parent / "cases"
    paths = args.cases or sorted(folder.glob("*.toml"))
    cases = [case for path in paths for case in read_cases(path)]
    return tally(side_by_side(lambda case: (case["name"], differences(program, case)), cases))


if __name__ == "__main__":
    run_tool(main)
