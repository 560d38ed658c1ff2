"""Runs the whole gate on a copy of the tree outside the checkout, as `make test` does. Later
changes in the checkout have no effect.

First `rt ci` proves and tests every crate, without the edits in must-fail/, which it would try one
by one. Then the other modules try the program. Beside both edits.py judges the edits, over the
libraries that `rt ci` has built, as far as processors and memory are left; what it says comes after
the trials. At the end come the trials that were left out because a tool is not installed, and as
the last line the sum of all steps. If `rt ci` fails, nothing else counts or is run.
"""
import contextlib, os, pathlib, re, resource, shutil, signal, subprocess, sys, tempfile, time

from author.lib.endings import run_tool
from author.lib.words import module_parser

from .lib.running import ROOT

EDITS = "gate.edits"
STEPS = ["gate.edits_trials", "author.tests.run", "gate.documents", "gate.play_cases", "gate.pipes",
         "gate.terminals", "gate.cert_inputs_trials", "gate.cuts", "gate.shares",
         "gate.ranking_trials", "gate.races_trials", "gate.scripts", "gate.runners",
         "release.try_release", "gate.refuse.two_devices", "gate.refuse.memory",
         "gate.refuse.writes", "gate.refuse.growth"]
# Ends a step and its children after an hour, with a traceback of where it was. The edits are not
# ended: a round of those of command_runs is one long check on one processor.
WATCHED = ["timeout", "--signal=ABRT", "--kill-after=5", "3600", sys.executable, "-X",
           "faulthandler"]
# With RT_JOBS set, `rt ci` gives each check one job, though processors are idle.
ENVIRONMENT = {name: value for name, value in os.environ.items() if name != "RT_JOBS"}


def copy_tree(tree, to, *left_out):
    """Copies a tree without what was built in it and without the folders `left_out`. Links stay
    links, which `rt ci` refuses."""
    ignored = shutil.ignore_patterns(".git", "out", "__pycache__", *left_out)
    shutil.copytree(tree, to, symlinks=True, ignore=ignored, dirs_exist_ok=True)


def begin(words, folder, **how):
    """Begins a step, whose lines are then followed."""
    print(f"{time.strftime('%H:%M:%S')} {' '.join(words)}", flush=True)
    return subprocess.Popen(words, cwd=folder, stdout=subprocess.PIPE, encoding="utf-8",
                            errors="replace", **{"env": ENVIRONMENT, **how})


def follow(step, left_out, edits=None):
    """Prints what a step prints, and passes the lines of `rt` on to `edits`. Returns the numbers
    that passed and failed, and adds the lines of what was left out to `left_out`."""
    last = ""
    with step:
        try:
            for line in step.stdout:
                print(line, end="", flush=True)
                last = line
                if line.startswith("left out: "):
                    left_out.append(line)
                if edits and line.startswith("rt: "):
                    with contextlib.suppress(BrokenPipeError):
                        print(line, end="", file=edits.stdin, flush=True)
        except KeyboardInterrupt:
            step.terminate()
            raise
    count = re.search(r"(\d+) passed, (\d+) failed", last)
    passed, failed = map(int, count.groups()) if count else (0, 0)
    return passed, max(failed, int(step.returncode != 0 or not count))


@contextlib.contextmanager
def edits_beside(tree, proved, anew):
    """Begins the edits in a copy of the tree, which has must-fail/, over the libraries that `rt ci`
    builds in the copy `proved`. If they still run at the end, kills them; their temporary files are
    beside the copies, and go with these."""
    for crate in (proved / "crates").iterdir():
        (tree / "crates" / crate.name / "out").symlink_to(crate / "out")
    edits = begin([sys.executable, "-m", EDITS, "--beside", *anew], tree, stdin=subprocess.PIPE,
                  process_group=0, env={**ENVIRONMENT, "TMPDIR": str(tree.parent)})
    try:
        yield edits
    finally:
        if edits.poll() is None:
            os.killpg(edits.pid, signal.SIGKILL)
            edits.wait()


def main():
    parser = module_parser("gate.gate", __doc__)
    parser.add_argument("--anew", action="store_true", help="prove and try again what earlier "
                        "runs on this machine passed")
    anew = ["--anew"] if parser.parse_args().anew else []
    began, left_out = time.monotonic(), []
    with tempfile.TemporaryDirectory(prefix="cwtune-gate-") as name:
        whole, copy = pathlib.Path(name, "edits"), pathlib.Path(name, "cwtune")
        copy_tree(ROOT, whole)
        copy_tree(whole, copy, "must-fail")
        with edits_beside(whole, copy, anew) as edits:
            counts = [follow(begin(["rt", "ci", *anew], copy), left_out, edits)]
            is_proved = not counts[0][1]
            if is_proved:
                with contextlib.suppress(BrokenPipeError):
                    edits.stdin.close()
                copy_tree(whole, copy)
                for step in STEPS:
                    counts.append(follow(begin([*WATCHED, "-m", step], copy), left_out))
                counts.append(follow(edits, left_out))
    used = resource.getrusage(resource.RUSAGE_CHILDREN)
    print(f"The gate took {(time.monotonic() - began) / 60:.1f} min, and "
          f"{(used.ru_utime + used.ru_stime) / 60:.1f} min of processor time.")
    print(*left_out, sep="", end="")
    passed, failed = map(sum, zip(*counts))
    print(f"{passed} passed, {failed} failed")
    return 1 if failed else 0


if __name__ == "__main__":
    run_tool(main)
