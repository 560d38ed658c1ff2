"""Runs commands and modules, and trials side by side."""
import concurrent.futures, os, pathlib, signal, subprocess, sys

ROOT = pathlib.Path(__file__).resolve().parents[2]


def side_by_side(call, jobs):
    """Returns what a call returns for each job, in a list. Uses all processors that it may."""
    with concurrent.futures.ThreadPoolExecutor(len(os.sched_getaffinity(0))) as pool:
        return list(pool.map(call, jobs))


def take_interrupts():
    """Lets a run be interrupted, also if this runs in the background of a script."""
    signal.signal(signal.SIGINT, signal.SIG_DFL)


def ran(words, folder=ROOT, **variables):
    """Returns the status of a command, its output and its standard error."""
    done = subprocess.run(words, cwd=folder, env={**os.environ, **variables},
                          stdin=subprocess.DEVNULL, capture_output=True, text=True)
    return done.returncode, done.stdout, done.stderr


def ran_module(*words):
    """Returns the status of a module of a room, its output and its standard error."""
    return ran([sys.executable, "-m", *words])
