"""Measures how long `cwtune asm` takes for the texts of warriors/. README.md says what is measured.
"""
import pathlib, tempfile

from .runs import least, run

FOLDER = pathlib.Path(__file__).resolve().parent / "warriors"
# The texts that are assembled; each must give the load file of the same name.
NAMES = ["plain", "names", "tables"]
# The time of this text of one line is taken as the start of the process.
SMALLEST = "DAT 0\n"
# A text is printed only if its time without the start is at least this part of the start.
LEAST_PART = 0.05


def print_texts(program, runs):
    """Prints a line per text: texts a second, microseconds an instruction, without the start."""
    loads = [(FOLDER / f"{name}.load").read_text("ascii") for name in NAMES]
    with tempfile.NamedTemporaryFile("w", suffix=".red") as smallest:
        smallest.write(SMALLEST)
        smallest.flush()
        files = [smallest.name, *(FOLDER / f"{name}.red" for name in NAMES)]
        start, *times = least([
            lambda words=[program, "asm", file], load=load: run(words, "", load).seconds
            for file, load in zip(files, [None, *loads])], runs)
    note = f"(start of the process {start * 1e6:.0f} us, taken off)"
    print(f"{'text':<14}{'instrs':>10}{'texts/s':>12}{'us/instr':>10}   {note}")
    for name, seconds, load in zip(NAMES, times, loads):
        rest, count = seconds - start, load.count("\n") - 1
        if rest < LEAST_PART * start:
            print(f"{name:<14}{count:>10}   too short to tell")
        else:
            print(f"{name:<14}{count:>10}{1 / rest:>12.0f}{rest / count * 1e6:>10.2f}")
