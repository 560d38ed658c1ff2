"""Plays what README.md and docs/ show: files, commands with their output, and tables of runs.

A block is indented, or between fences.

- `Save this as NAME`: the block after this paragraph is the file NAME.
- A block that begins with `$ ` has commands, each with its output. A line `..` matches any lines,
  and `..` in a line any text. The output says the exit status: 1 after a line that begins with
  `refused` or `rejected`, 2 with `error`, 3 with `failed`, and otherwise 0.
- A table with a column `Prints` has a run in each row, of the command that the paragraph before it
  names last. `Text` is the file `x.red`. `With` replaces the lines `Instead of` in a saved file
  that the command names. A column whose head is in capitals replaces that word of the command.

Also looks in each document for the lines of a merge that nobody has settled.
"""
import collections, os, pathlib, re, shutil, subprocess, tempfile
from typing import NamedTuple

from author.lib.endings import run_tool
from author.lib.words import program_word

from .lib.play import status_of
from .lib.running import ROOT
from .lib.tally import tally

# All documents share a folder: USING.md goes on with the files of README.md, which comes first.
DOCUMENTS = [ROOT / "README.md", *sorted((ROOT / "docs").glob("*.md"), reverse=True)]
# The folders for commands that are not typed at the top.
FOLDERS = {"TOOLS.md": "examples/tuning"}
BLOCK = re.compile(r"(?:^    .*\n)+|^```.*\n(?:.*\n)*?```\n", re.M)
SAVED = re.compile(r"Save\s+this\s+as\s+`([^`]+)`")
# A paragraph, which may be missing, and a table.
TABLE = re.compile(r"((?:^[^|\n].*\n)*)\n((?:^\|.*\n)+)", re.M)
# The lines that a merge with conflicts leaves.
UNSETTLED = re.compile(r"^(?:<{7}|={7}|>{7})(?: .*)?$", re.M)
END = "end of a command"
SECONDS = 600


class Run(NamedTuple):
    """A command that a document shows, what it prints, and the texts of its own files by name."""

    name: str
    command: str
    printed: str
    files: dict = {}


def text_of(block):
    """Returns the text of a block, without its margin or its fences."""
    if block.startswith("```"):
        return "".join(block.splitlines(keepends=True)[1:-1])
    return re.sub(r"^    ", "", block, flags=re.M)


def saved_files(text):
    """Returns the texts of the files that a document says to save, None without a block."""
    files = {}
    for match in SAVED.finditer(text):
        block = BLOCK.match(text, text.find("\n\n", match.end()) + 2)
        files[match[1]] = text_of(block[0]) if block else None
    return files


def runs_in_blocks(text):
    """Returns the runs that the blocks of a document show."""
    runs = []
    for block in BLOCK.findall(text):
        lines = text_of(block).replace("\\\n", "")
        if lines.startswith("$ "):
            parts = [part.split("\n", 1) for part in re.split(r"^\$ ", lines, flags=re.M)[1:]]
            runs += [Run(command, command, printed) for command, printed in parts]
    return runs


def cells_of(line):
    return [cell.strip().replace("\\|", "|") for cell in re.split(r"(?<!\\)\|", line)[1:-1]]


def rows_of(text):
    """Yields each row of a table of runs: the commands named before the table, heads and cells."""
    for paragraph, table in TABLE.findall(text):
        head, *rows = map(cells_of, table.splitlines())
        commands = re.findall(r"`(cwtune [^`]+)`", " ".join(paragraph.split()))
        yield from ((commands, head, row) for row in rows[1:] if "Prints" in head)


def lines_in(cell):
    """Returns the text whose lines a cell begins with."""
    code = re.match(r"(?:`[^`]*`(?: / )?)*", cell)[0]
    return "".join(f"{line}\n" for line in re.findall("`([^`]*)`", code))


def file_of_row(row, command, saved):
    """Returns the name of the file that a row is about, and its text in that row."""
    if "With" not in row:
        return "x.red", lines_in(row["Text"])
    old = lines_in(row["Instead of"])
    name, = (name for name in saved if name in command.split() and old in saved[name])
    before, _, after = saved[name].partition(old)
    return name, before + lines_in(row["With"]) + after


def run_of_row(row, command, saved, index):
    """Returns the run of a row. Its file has a name of its own."""
    files, name = {}, f"{command}: {' | '.join(row.values())}"
    if row.keys() & {"Text", "With"}:
        file, files[f"row-{index}"] = file_of_row(row, command, saved)
        before, after = command.split(file)
        command = f"{before}row-{index}{after}"
    for head in filter(str.isupper, row):
        command = re.sub(rf"\b{head}\b", lambda _, cell=row[head]: lines_in(cell).strip(), command)
    return Run(name, command, lines_in(row["Prints"]), files)


def runs_in_tables(text, saved):
    """Yields the runs that the tables of a document show, or what a row lacks."""
    for index, (commands, head, row) in enumerate(rows_of(text)):
        try:
            yield run_of_row(dict(zip(head, row, strict=True)), commands[-1], saved, index)
        except (IndexError, KeyError, ValueError):
            yield f"the row {row} has no command, not its cells, or no file of the command"


def is_printed(expected, output):
    """Checks whether a command printed what a document shows."""
    lines = (r"(?:.*\n)*" if line.strip() == ".." else
             ".*".join(re.escape(part) for part in line.split("..")) + "\n"
             for line in expected.splitlines())
    return re.fullmatch("".join(lines), output) is not None


def typed(program, runs, folder):
    """Types commands in a shell, for SECONDS at most. Returns the output and the status of each, as
    far as it comes."""
    shell = "".join(f"{run.command}\necho \"{END} $?\"\n" for run in runs)
    path = f"{pathlib.Path(program).parent}:{ROOT / 'author'}:{os.environ['PATH']}"
    words = ["timeout", "--kill-after=5", str(SECONDS), "bash", "-c", shell]
    with subprocess.Popen(words, cwd=folder, env={**os.environ, "PATH": path},
                          stdin=subprocess.DEVNULL, stdout=subprocess.PIPE,
                          stderr=subprocess.STDOUT, encoding="utf-8", errors="replace") as job:
        try:
            out = job.communicate()[0]
        finally:
            job.terminate()  # Ctrl-C does not reach what bash began
    parts = re.split(rf"{END} (\d+)\n", out)
    return list(zip(parts[::2], parts[1::2]))


def shown_in(text):
    """Returns the files of a document, the texts by the names, its runs, and what it lacks."""
    files = saved_files(text)
    saved = {name: block for name, block in files.items() if block is not None}
    found = [*runs_in_blocks(text), *runs_in_tables(text, saved),
             *(f"no block to save as {name}" for name in files if name not in saved),
             *(f"{name} is saved twice" for name, times
               in collections.Counter(SAVED.findall(text)).items() if times > 1)]
    runs = [run for run in found if isinstance(run, Run)]
    return saved, runs, [lack for lack in found if isinstance(lack, str)]


def faults_of(run, out, status):
    """Returns what is wrong with the output and the status of a run, in a list."""
    right = is_printed(run.printed, out) and int(status) == status_of(run.printed)
    return [] if right else [f"got {out!r}, status {status}"]


def played(program, document, folder):
    """Plays what a document shows. Returns each run with what was wrong."""
    saved, runs, lacks = shown_in(document.read_text("utf-8"))
    for name, text in [*saved.items(), *(file for run in runs for file in run.files.items())]:
        (folder / name).write_text(text)
    results = typed(program, runs, folder)
    wrong = [(run.name, faults_of(run, *result)) for run, result in zip(runs, results)]
    wrong += [(run.name, ["ended the shell, or did not end"]) for run in runs[len(results):][:1]]
    return [(document.name, [lack]) for lack in lacks] + [
        (f"{document.name}: {name}", faults) for name, faults in wrong]


def trials(program):
    yield from ((f"{document.name}: no unsettled merge",
                 UNSETTLED.findall(document.read_text("utf-8"))) for document in DOCUMENTS)
    with tempfile.TemporaryDirectory() as name:
        # The documents call it `cwtune`, whatever the name of its file is.
        linked, folder = pathlib.Path(name, "cwtune"), pathlib.Path(name, "folder")
        linked.symlink_to(program)
        shutil.copytree(ROOT / "examples", folder / "examples")
        runs = [trial for document in DOCUMENTS for trial in played(
            linked, document, folder / FOLDERS.get(document.name, "."))]
    yield from runs
    yield "runs in documents", [] if runs else ["none was found"]


def main():
    return tally(trials(program_word("gate.documents", __doc__)))


if __name__ == "__main__":
    run_tool(main)
