"""Tunes where the certificate and the template have one inode.

On two devices they are two files, and the older certificate is replaced; on one device they are one
file, which is not overwritten. Needs `cc` and a system with LD_PRELOAD.
"""
from author.lib.endings import run_tool
from author.lib.words import program_word

from ..lib.play import end
from ..lib.tally import compare, tally
from .runs import FILES, TUNINGS, library_of, run, with_rules

WORDS, TUNED = TUNINGS[0]
NAMED = "error: CERT is also another file of this command, and is not overwritten: CERT\n"


def trials(program):
    with library_of("two_devices.c") as library:
        for name, variables, expected in [("two devices", {"DEVICES": 1}, TUNED),
                                          ("one device", {}, end(2, err=NAMED))]:
            yield compare(name, expected,
                          run(program, library, with_rules(WORDS), FILES, **variables))


def main():
    return tally(trials(program_word("gate.refuse.two_devices", __doc__)))


if __name__ == "__main__":
    run_tool(main)
