"""Runs the program once for each of its requests for memory, with that request refused.

Each run has to end with its own result, which `runs.py` says, or with status 3, the line
`failed: OutOfMemory`, nothing on standard output and CERT as it was. The number of requests also
shows that no assembly is repeated (`once_each.py`). The last line says how many requests were
refused, too. Needs `cc` and a system with LD_PRELOAD.
"""
import functools

from author.lib.endings import run_tool
from author.lib.words import program_word

from ..lib.play import end
from ..lib.running import side_by_side
from ..lib.tally import tally
from . import once_each, runs
from .runs import FILES, all_runs, library_of, refuse_each

REFUSED = end(3, err="failed: OutOfMemory\n")


def refuse_each_of(program, library, words, text, expected):
    """Refuses each request of a run in turn. Returns how many there were, and what was wrong."""
    run, requests = (functools.partial(call, program, library, words, FILES, text)
                     for call in (runs.run, once_each.requests))
    return refuse_each(run, requests, expected, [REFUSED])


def main():
    program, jobs = program_word("gate.refuse.memory", __doc__), all_runs()
    with library_of("memory.c") as library:
        results = side_by_side(lambda job: refuse_each_of(program, library, *job[1:]), jobs)
        again = list(once_each.trials(program, library))
    total = sum(requests for requests, _ in results)
    trials = [(name, wrong) for (name, *_), (_, wrong) in zip(jobs, results)]
    return tally([*trials, *again], f"{total} requests refused: ")


if __name__ == "__main__":
    run_tool(main)
