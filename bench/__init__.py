"""The benchmark. At the top: `python3 -m bench.NAME`, with `--help` for more.

measure       turns a second, and the time of series, texts and tunings, by `fights`, `pairs`,
              `players`, `texts` and `tunings`; `run.py` runs it from any folder
limit         what a processor could do (limit.cc), with the counts of `plain_machine`
loop_place    where the hot loop lies
naive         the search to beat
races         races of searches, with their table (`races_table`)
random_pairs  pairs of random warriors
searches      fights and seconds of searches
runs          the runs that all of them time
"""
