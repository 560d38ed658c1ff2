"""The input files that runs of the program share, by name: those of `inputs.toml`, and the warriors
of `examples/` as their load files, which are Redcode texts too."""
import pathlib, tomllib

GATE = pathlib.Path(__file__).resolve().parents[1]
WARRIORS = GATE.parent / "examples" / "warriors"
SHARED = tomllib.loads((GATE / "inputs.toml").read_text("utf-8"))
FILES = SHARED["files"] | {path.with_suffix(".red").name: path.read_text("ascii")
                           for path in sorted(WARRIORS.glob("*.load"))}
WORDS, TEXTS = SHARED["words"], SHARED["texts"]
RULES = WORDS["small"].split()


def files(*names):
    """Returns some of the files by name."""
    return {name: FILES[name] for name in names}
