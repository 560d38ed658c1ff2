"""Tries the commands for authors on the examples: `python3 -m author.tests.run`, or `make tools`.

`run` has the stored results (expected/), helps and closed streams, and plays the trials of
the other modules, of which each says in its first sentence what it tries.

Each has classes of `trial.Trial`, a `unittest.TestCase`. A trial is a method `test_..`; each thing
that it compares is a subtest. What failed is named after its module and its trial, as
`spreading.folders: a file in its place`, and `-k spreading.folders` plays that trial alone.

A trial that needs a tool which is not installed is left out, and named before the last line; with
CWTUNE_ALL=1 it has failed.

Their libraries: `trial` has what all trials have, `spread_trial` and `study_trial` the folders of
two commands, `ssh_hosts` and `slurm_place` the hosts and the Slurm by configs/, and
`report_samples` makes up the reports of `reporting`. In all of them a `result` is how a command
ended (`trial.Result`), and `expected` is how it has to end.
"""
