"""Tries the release that `dist.py` makes.

Packs, unpacks, installs and removes it in a temporary folder, and runs the program and the commands
of each without this checkout: nothing of it is on the PATH. Nothing is proved again.
The manual pages and completions have to name each command and option. Without `dpkg-deb` on the
PATH the Debian package is left out, and without matplotlib `cwtune-landscape`.
"""
import contextlib, functools, importlib, os, pathlib, re, shutil, stat, subprocess, sys, tarfile
import tempfile

from author.lib.endings import Fault, run_tool
from author.lib.program import output_of
from author.lib.words import program_word
from gate.lib.tally import LeftOut, compare, tally

from . import dist, manual

BOMBER = """;redcode-94
;@tune HOP 3000 3090 45 3045
        ORG   split
bomb    DAT   >1, 0
split   SPL   #0, 0
throw   MOV   bomb, @aim
        ADD   #HOP, aim
        JMP   throw
aim     DAT   0, 3000
"""
# Runs of the commands for authors, each with the beginning of what it prints.
AUTHOR_RUNS = [
    ("cwtune-scores a.cert fights.csv --template a.red", "best setting "),
    ("cwtune-warrior a.red a.cert", ";redcode-94\n"),
    ("cwtune-holdout --rounds 2 a.red a.cert dwarf.red", "setting "),
    ("cwtune-spread --jobs 2 a.red fights.csv b.cert dwarf.red", "vectors 3\n"),
    ("cwtune-files a.red a.cert", "a.red: template of 3 settings"),
    ("cwtune-landscape a.red a.cert a.svg", ""),
    ("cwtune-vary dwarf.red", "step=4: line 12, "),
    ("cwtune-adapt dwarf.red", ";redcode"),
    ("cwtune-seek --fights 1000 a.red fights.csv dwarf.red", ";redcode-94\n"),
    ("cwtune-study --rounds 2 --fresh 2 a.red dwarf.red", "all 3 settings are tuned"),
]
# How a manual page and the completions for bash, zsh and fish have an option, and a command.
OPTION = [r"(?m)^\.TP\n\.B .*--{}(?![\w-])", r' options=".*--{}(?![\w-])', r"'--{}\[", " -l {} "]
COMMAND = [r"\n\.SS cwtune {}\n", r"\n +{}\) options=", r"\n +{}\) _arguments ", " -a {} "]
# Begun words of a command line, and how bash completes the last.
COMPLETIONS = [("cwtune che", "check"), ("cwtune tune --ca", "--cache"),
               ("cwtune asm --se", "--setting"), ("cwtune check --pa", "--part"),
               ("cwtune check --sh", "--share"), ("cwtune fight --fi", "--first"),
               ("cwtune-scores --te", "--template"), ("cwtune-spread --me", "--merge"),
               ("cwtune-spread --check-o", "--check-only"), ("cwtune-adapt --pm", "--pmars"),
               ("cwtune-seek --mi", "--minutes"), ("cwtune-study --fr", "--fresh")]

# Variables of the Makefile with blanks, and the words that its targets then give to a module.
VARIABLES = ["PREFIX=/a b", "DESTDIR=c d", "BUILT=e f", "DIGEST=0", "PROVED=g h", "PMARS=i j",
             "PROGRAM=k l"]
BEFORE = "[--built][e f][--digest][0][--proved][g h]"
MADE = {"install": f"[release.dist][install][c d/a b]{BEFORE}",
        "uninstall": "[release.dist][uninstall][c d/a b]",
        "deb": f"[release.dist][deb][dist]{BEFORE}",
        "bench": "[bench.measure][--program][k l][--pmars][i j]",
        "compare": "[pmars.compare][i j]", "memory": "[gate.refuse.memory][k l]"}


def run(words, folder, path):
    """Runs words with nothing but the system and `path` on the PATH. Returns status and output."""
    env = {"PATH": f"{path}:/usr/bin:/bin", "HOME": "/nonexistent"}
    done = subprocess.run(words, cwd=folder, env=env, capture_output=True, text=True)
    return done.returncode, done.stdout + done.stderr


@functools.cache
def left_out():
    """Returns the commands that cannot run here, each with the reason."""
    status, _ = run(["python3", "-c", "import matplotlib"], "/", "/")
    return {"cwtune-landscape": "no matplotlib"} if status else {}


def faults_of_use(prefix, zsh=dist.ZSH):
    """Yields what is wrong with a release below a prefix: a tuning, its check, and the commands."""
    programs = prefix / "bin"
    with tempfile.TemporaryDirectory() as folder:
        pathlib.Path(folder, "a.red").write_text(BOMBER)
        shutil.copy(prefix / dist.SHARE / "examples/warriors/dwarf.red", folder)
        status, text = run(["cwtune-series", "4321", "3", "1"], folder, programs)
        pathlib.Path(folder, "fights.csv").write_text(text)
        words = ["a.red", "fights.csv", "a.cert", "dwarf.red"]
        tuned = run(["cwtune", "tune", *words], folder, programs)
        if status or tuned[0] or not tuned[1].startswith("vectors 3\n"):
            yield f"tune: {status} {tuned}"
            return
        best, total = (line.split()[1] for line in tuned[1].splitlines()[2:5:2])
        checked = run(["cwtune", "check", *words], folder, programs)
        if checked != (0, f"accepted best {best} total {total}\n"):
            yield f"check: {checked}"
        for words, start in AUTHOR_RUNS:
            if words.split()[0] in left_out():
                continue
            came = run(words.split(), folder, programs)
            if came[0] or not came[1].startswith(start):
                yield f"{words}: {came}"
    for _, place in dist.manual_files(zsh):
        if not (prefix / place).is_file():
            yield f"no file {place}"
    if not any(prefix.rglob("__pycache__")):
        yield "the commands leave no caches, so that no removal of them is tried"


def trial_of_tar(work, build):
    """Packs twice, checks the checksums, and uses what is unpacked."""
    tar, checksum = dist.pack(work, build)
    if checksum.read_text() != f"{dist.sha256(tar)}  {tar.name}\n":
        yield "its checksum is another one"
    (work / "again").mkdir()
    again, _ = dist.pack(work / "again", build)
    if again.read_bytes() != tar.read_bytes():
        yield "packed twice it has other bytes"
    output_of(["tar", "-xf", tar], cwd=work)
    tree = work / tar.name.removesuffix(".tar.gz")
    status, text = run(["sha256sum", "--check", "--quiet", "SHA256SUMS"], tree, tree)
    if status:
        yield text
    yield from faults_of_use(tree)
    yield from (f"no folder {item.term}" for item in manual.FILES
                if "/" in item.term and not (tree / item.term).is_dir())


def trial_of_install(work, build):
    """Installs over an older release, uses what is installed, and removes it."""
    prefix = work / "prefix"
    (prefix / "bin").mkdir(parents=True)
    (prefix / "bin/other").write_text("of somebody else\n")
    dist.install(prefix, build)
    # as if an older release had one more package, which was used
    older = dist.SHARE / "older"
    (prefix / older / "__pycache__").mkdir(parents=True)
    (prefix / older / "__init__.py").write_text("")
    with (prefix / dist.INSTALLED).open("a") as file:
        file.write(f"{older}/\n{older}/__init__.py\n")
    dist.install(prefix, build)
    if (prefix / older).exists():
        yield "a package of an older release stays"
    yield from faults_of_use(prefix)
    dist.uninstall(prefix)
    yield from faults_of_removal(prefix, ["bin", "bin/other"])


def faults_of_removal(prefix, expected):
    """Yields what an uninstall has left, if these paths are not what it should leave."""
    left = sorted(str(path.relative_to(prefix)) for path in prefix.rglob("*"))
    yield from compare("", expected, left)[1]


def trial_of_broken_install(work, build):
    """Breaks an installation amid its files. What it has put has to be removable."""
    (work / "share").mkdir()
    (work / "share/bash-completion").write_text("a file in place of a folder\n")
    with contextlib.suppress(OSError):
        dist.install(work, build)
        yield "a file in place of a folder is no fault"
    dist.uninstall(work)
    yield from faults_of_removal(work, ["share", "share/bash-completion"])


def made_privately(what, work, build):
    """Packs or installs a private program where new files are private. Returns the folder."""
    program, folder = work / "program", work / what
    shutil.copy(build.path, program)
    program.chmod(0o700)
    words = [sys.executable, "-m", "release.dist", what, folder, "--built", "./program", "--digest",
             dist.sha256(program)]
    subprocess.run(words, cwd=work, env={**os.environ, "PYTHONPATH": str(dist.ROOT)}, umask=0o077,
                   stdout=subprocess.DEVNULL, check=True)
    return folder


def trial_of_modes(work, build):
    """Packs and installs privately: what comes of it is for everybody."""
    with tarfile.open(next(made_privately("tar", work, build).glob("*.tar.gz"))) as file:
        modes = {entry.name.partition("/")[2]: entry.mode for entry in file if entry.isfile()}
    modes |= {path: stat.S_IMODE(path.stat().st_mode)
              for path in made_privately("install", work, build).rglob("*")}
    yield from (f"{path} has the mode {mode:o}" for path, mode in modes.items()
                if mode not in (0o644, 0o755))
    yield from compare("the program", 0o755, modes["bin/cwtune"])[1]


def trial_of_faults(work, _):
    """Looks for licences where there are none, and runs a command that fails."""
    for call, word in [(dist.licences, work), (output_of, ["false"])]:
        with contextlib.suppress(Fault):
            call(word)
            yield f"{call.__name__} {word}: no fault"


def trial_of_builds(work, build):
    """Takes a program that was built before, with its digest and what was proved of it, and with
    those of another one."""
    digest = dist.sha256(build.path)
    for name, of in [("PROVED", digest), ("OTHER", "0" * 64)]:
        (work / name).write_text(f"Proved with a kit\nprogram: SHA-256 {of}\n")
    taken = dist.build_of(build.path, digest, work / "PROVED")
    if taken != (build.path, (work / "PROVED").read_text()):
        yield f"the build is {taken}"
    for wrong in [(build.path, "0" * 64, None), (build.path, digest, work / "OTHER"),
                  (work / "none", digest, None)]:
        with contextlib.suppress(Fault):
            dist.build_of(*wrong)
            yield f"{wrong} is no fault"


def trial_of_package(work, build):
    """Unpacks a Debian package of a program that was built before, uses it, and removes it."""
    [package] = made_privately("deb", work, build).iterdir()
    line = output_of(["dpkg-deb", "--field", package, "Description"]).splitlines()[-1]
    yield from compare("what is proved", " Not proved here: the program was built before.", line)[1]
    output_of(["dpkg-deb", "--extract", package, work / "system"])
    yield from faults_of_use(work / "system/usr", dist.DEBIAN_ZSH)
    output_of(["dpkg-deb", "--control", package, work / "control"])
    script = (work / "control/prerm").read_text().replace("/usr/", "usr/")
    output_of(["sh", "-c", script], cwd=work / "system")
    yield from compare("caches after a removal", [], [*work.rglob("__pycache__")])[1]


def faults_of_pages(program, folder):
    """Yields which commands and options a manual page or a completion lacks."""
    commands = manual.Help(program).commands
    wanted = {name: [(OPTION, word) for word in options_of(module)]
              for name, module in manual.COMMANDS.items()}
    wanted[manual.NAME] = [(COMMAND, name) for name in commands] + [
        (OPTION, word) for name in commands for word in re.findall(
            r"(?m)^ +(?:-\w, )?--([a-z-]+)", output_of([program, name, "--help"]))
        if word != "help"]
    for name, words in wanted.items():
        for index, file in enumerate(manual.file_names(name)):
            text = (folder / file).read_text("utf-8").replace("\\-", "-")
            yield from (f"{file} lacks {word}" for forms, word in words
                        if not re.search(forms[index].format(word), text))


def options_of(module):
    """Returns the long options of a command for authors, by its parser."""
    actions = importlib.import_module(f"author.lib.{module}").make_parser()._actions
    return [word[2:] for action in actions for word in action.option_strings if word[:2] == "--"]


def trials_of_pages(program):
    """Makes the manual pages and the completions, and completes words in bash."""
    with tempfile.TemporaryDirectory() as name:
        folder = pathlib.Path(name)
        manual.write(program, folder)
        yield "each command and option of the help", list(faults_of_pages(program, folder))
        for line, expected in COMPLETIONS:
            words = line.split()
            function = "_" + re.sub("-", "_", words[0])
            script = (f"source ./{words[0]}.bash; COMP_WORDS=({line}); COMP_CWORD="
                      f"{len(words) - 1}; {function}; echo ${{COMPREPLY[@]}}")
            yield compare(f"completing {line}", (0, f"{expected}\n"),
                          run(["bash", "-c", script], folder, folder))


def trials_of_makefile():
    """Makes targets without building, with a command in place of Python that prints its words."""
    for target, expected in MADE.items():
        words = ["make", "-s", "-o", "build", target, "PYTHON=printf [%s]", *VARIABLES]
        yield compare(f"make {target}", (0, expected), run(words, dist.ROOT, dist.ROOT))


def trials(build):
    yield from trials_of_makefile()
    yield from trials_of_pages(str(build.path))
    names = {words.split()[0] for words, _ in AUTHOR_RUNS} | {"cwtune-series"}
    yield compare("commands that are run", list(manual.COMMANDS), sorted(names))
    yield from ((f"runs of {name}", LeftOut(why)) for name, why in left_out().items())
    tried = [trial_of_tar, trial_of_install, trial_of_broken_install, trial_of_modes,
             trial_of_faults, trial_of_builds]
    if shutil.which("dpkg-deb"):
        tried.append(trial_of_package)
    else:
        yield "trial of package", LeftOut("no dpkg-deb")
    for trial in tried:
        with tempfile.TemporaryDirectory() as folder:
            yield trial.__name__.replace("_", " "), list(trial(pathlib.Path(folder), build))


def main():
    program = pathlib.Path(program_word("release.try_release", __doc__))
    return tally(trials(dist.Build(program, "not asked for in a trial\n")))


if __name__ == "__main__":
    run_tool(main)
