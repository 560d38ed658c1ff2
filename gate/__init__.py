"""What `make test` runs beside `rt ci`. At the top: `python3 -m gate.NAME`, with `--help` for more.

Each module but `answers` prints what failed, and as its last line `N passed, N failed`. Its exit
status is 1 if something failed, or if nothing was tried.

gate             runs all of it, on a copy of the tree
answers          which answers the prover does without (run by hand)
edits            wrong bodies (crates/*/must-fail/) that the prover has to refuse, and for each
                 crate a body (harmless/) that it must not refuse
edits_trials     how edits are judged, and begun beside `rt ci`, with a stand-in for the kit
play_cases       the cases: runs of the program as data (cases/)
documents        what README.md and docs/ show: commands with their output, and tables of runs
pipes            pipes, closed streams, links, kills
terminals        progress, and what a terminal is told
cuts             texts that end after each of their bytes
shares           damaged certificates, checked at once and in shares
cert_inputs_trials
                 the file CERT.inputs
ranking_trials   searches for the first of the ranking and with a floor
races_trials     the races of bench, with stand-ins, and their table
scripts          demo.sh, certify.py and slurm.sh of examples/
runners          the modules of all rooms: their help, and programs that do not exist or fail
refuse.memory    the program, with each of its requests for memory refused
refuse.growth    the tests of calls that allocate, likewise
refuse.writes    the program, with each of its writes failing
refuse.two_devices
                 a certificate and a template that have one inode

`author.tests.run` and `release.try_release` try the commands for authors and the release.
What they share is in `lib`. `functions` is part of `edits`; `refuse.runs` and `refuse.once_each`
are parts of `refuse`. `prove.sh` is `make prove`.
"""
