"""Commands for authors of warriors: the executable files of this folder, what they share, tests.

docs/TOOLS.md says how to use them, and docs/ARCHITECTURE.md ("To change one thing") how to add one.
Each command is a file that starts `lib.start`; from other rooms `lib` is `author.lib`.
"""
