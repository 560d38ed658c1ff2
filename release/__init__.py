"""The release. At the top: `python3 -m release.NAME`, with `--help` for more.

dist             packs the program, installs it, or removes it
manual           manual pages and completions
try_release      tries the release
"""
