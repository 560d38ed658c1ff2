"""Measures how long `cwtune tune` takes for templates of examples/tuning/. README.md says what is
measured."""
import pathlib, re, tempfile

from .runs import least, run

FOLDER = pathlib.Path(__file__).resolve().parent.parent / "examples/tuning"
# The templates with the report that each must give.
TEMPLATES = {"stone": "report.txt", "decoy": "decoy-report.txt"}
# The file says in a line of shell which warriors are the opponents, in the order of their indices.
OPPONENTS = re.findall(r"[\w-]+\.red", (FOLDER.parent / "opponents.sh").read_text("ascii"))


def print_tunings(program, runs):
    """Prints the settings a second of processor time of each tuning, with the start of the
    process."""
    print(f"{'tuning':<14}{'settings':>10}{'settings/s':>12}")
    opponents = [FOLDER.parent / "warriors" / name for name in OPPONENTS]
    for name, report in TEMPLATES.items():
        expected = (FOLDER / report).read_text("ascii")
        with tempfile.TemporaryDirectory() as folder:
            words = [program, "tune", FOLDER / f"{name}.red", FOLDER / "schedule.csv",
                     pathlib.Path(folder, "cert"), *opponents]
            seconds, = least([lambda: run(words, "", expected).processor], runs)
        settings = int(expected.split()[1])
        print(f"{name:<14}{settings:>10}{settings / seconds:>12.1f}", flush=True)
