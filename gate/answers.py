"""Looks which answers the prover does without, in crates/CRATE/proofs/.

Takes every Answers.antt of a crate away, checks the crate, and puts them all back. What was proved
all the same needs no answers: its file is named, and with --delete it is deleted then. All have to
be committed, so that a check that is killed loses none. The search may take longer than an answer
did, so look at what a check of the crate costs before and after.
"""
import re, shutil, subprocess

from author.lib.endings import Fault, run_tool
from author.lib.program import output_of
from author.lib.words import module_parser

from .lib.running import ROOT

PROVED = re.compile(r"fn (\S+): proved")


def function_of(crate, file):
    """Returns the path of a file's function: its folder below proofs/, where a `+` before a name
    tells a function from the module of that name."""
    folders = file.relative_to(crate / "proofs").parent.parts
    return "::".join([crate.name, *(folder.removeprefix("+") for folder in folders)])


def without_answers(crate):
    """Returns the files of answers of the functions that are proved without them."""
    files = sorted(crate.glob("proofs/**/Answers.antt"))
    if changed := files and output_of(["git", "status", "--porcelain", "--", *files], cwd=crate):
        raise Fault(f"not committed: {changed.split()[1]}", 2)
    kept = {file: file.read_bytes() for file in files}
    try:
        for file in files:
            file.unlink()
        done = subprocess.run(["rt", "check"], cwd=crate, capture_output=True, encoding="utf-8",
                              errors="replace")
    finally:
        for file, text in kept.items():
            file.write_bytes(text)
    proved = set(PROVED.findall(done.stdout))
    if not proved:
        raise Fault(f"{crate.name}: rt check proved nothing", 3)
    return [file for file in files if function_of(crate, file) in proved]


def main():
    parser = module_parser("gate.answers", __doc__)
    parser.add_argument("--delete", action="store_true", help="delete these files")
    parser.add_argument("crates", nargs="+", metavar="CRATE", help="a folder of crates/")
    args = parser.parse_args()
    if not shutil.which("rt"):
        raise Fault("no `rt` on the PATH", 2)
    crates = [ROOT / "crates" / name for name in args.crates]
    # All names are looked at before anything is deleted.
    if unknown := [crate.name for crate in crates if not (crate / "proofs").is_dir()]:
        raise Fault(f"no crate is called {unknown[0]}, or it has no proofs", 2)
    for crate in crates:
        for file in without_answers(crate):
            print(file.relative_to(ROOT))
            if args.delete:
                file.unlink()


if __name__ == "__main__":
    run_tool(main)
