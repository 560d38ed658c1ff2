"""Packs `cwtune` for machines without the kit, installs it, or removes it.

A release has the program and the commands for authors, their manual pages and completions for bash,
zsh and fish, examples and documents, the licences, what was proved with which kit, and checksums.
By default the program is the one that is built here, each crate of which has to be proved. --built
takes one that was built before, if it has the digest; then nothing is proved, and the release says
so, unless --proved gives the file PROVED of a release with this program.
"""
import contextlib, gzip, hashlib, os, pathlib, re, shutil, subprocess, tarfile, tempfile
from typing import NamedTuple

from author.lib.endings import Fault, run_tool
from author.lib.program import BUILT, output_of, program_of
from author.lib.words import module_parser
from author.lib.writing import whole_file

from . import manual

ROOT = pathlib.Path(__file__).resolve().parent.parent
DOC, SHARE = pathlib.Path("share/doc/cwtune"), pathlib.Path("share/cwtune")
INSTALLED = SHARE / "installed.txt"
# Where the files go that `manual.py` writes for a command, in the order of its FILE_NAMES. Debian's
# zsh reads site-functions below /usr/local alone, so a package has another folder.
PLACES = ["share/man/man1/{}.1", "share/bash-completion/completions/{}", "share/zsh/{zsh}/_{}",
          "share/fish/vendor_completions.d/{}.fish"]
ZSH, DEBIAN_ZSH = "site-functions", "vendor-completions"
# The tests and look.sh need the sources.
LEFT_OUT = shutil.ignore_patterns("tests", "look.sh", "__pycache__")
TAR_README = """cwtune tunes Core War warriors. Begin with share/doc/cwtune/README.md.

    sha256sum --check --quiet SHA256SUMS    checks the files
    share/doc/cwtune/PROVED                 says what was proved with which kit, or that nothing was
"""
DEBIAN_CONTROL = """Package: cwtune
Version: {version}
Architecture: amd64
Maintainer: the cwtune project
Depends: libc6 (>= 2.34), python3 (>= 3.11)
Suggests: openssh-client, parallel, procps, python3-matplotlib, rsync
Section: games
Priority: optional
Description: tunes Core War warriors, with a certificate of the answer
 Finds the values of a warrior's constants that make the most points against given opponents, and
 writes a certificate; a separate checker accepts it only if the answer is right.
 {proof}
"""
# Python leaves these beside the commands' modules. dpkg does not know of them, so a package removes
# them itself.
CACHES = [SHARE / path.relative_to(ROOT).with_name("__pycache__")
          for path in sorted((ROOT / "author/lib").rglob("__init__.py"))]
DEBIAN_PRERM = f"#!/bin/sh\nrm -rf {' '.join(f'/usr/{cache}' for cache in CACHES)}\n"


class Build(NamedTuple):
    """A program that is packed, and the text of PROVED, which says what was proved of it."""

    path: pathlib.Path
    proof: str


def proved():
    """Returns what was proved: the kit, and a line of its check for each crate that is no test."""
    kit = output_of(["rt", "version"]).strip()
    lines = [f"Proved with {kit}", f"program: SHA-256 {sha256(BUILT)}", ""]
    for crate in re.findall(r"(?m)^(\w+)(?<!_tests):", (ROOT / "crates.txt").read_text()):
        done = subprocess.run(["rt", "check"], cwd=ROOT / "crates" / crate, capture_output=True,
                              text=True)
        found = re.findall(r"(?m)^logic=.*$", done.stdout + done.stderr)
        if done.returncode != 0 or not found:
            raise Fault(f"{crate} is not proved: run `make build`", 3)
        lines.append(f"{crate}: {found[-1]}")
    return "\n".join(lines) + "\n"


def sha256(path):
    return hashlib.sha256(path.read_bytes()).hexdigest()


def build_of(built, digest, proof):
    """Returns what is packed: the program built here, or the one of --built, which has to have the
    digest. `proof` is the path of --proved, which has to be about this program."""
    if not built:
        if not BUILT.is_file():
            raise Fault("the program is not built (`make build` builds it)", 2)
        return Build(BUILT, proved())
    built = pathlib.Path(program_of(built))
    if sha256(built) != digest:
        raise Fault(f"{built} has the SHA-256 digest {sha256(built)}, and --digest is another", 2)
    if not proof:
        return Build(built, f"Not proved here: the program was built before.\n"
                            f"program: SHA-256 {digest}\n")
    text = proof.read_text("utf-8", "replace")
    if f"program: SHA-256 {digest}\n" not in text:
        raise Fault(f"{proof} is not about the program with this digest", 2)
    return Build(built, text)


def kit_folder():
    """Returns the folder of the kit whose `rt` is on the PATH."""
    rt = shutil.which("rt")
    if not rt:
        raise Fault("no `rt` on the PATH", 2)
    return pathlib.Path(rt).resolve().parents[1]


def licences(ported):
    """Returns the licences of the ported crates that are linked in, which are in `ported`."""
    # Each line names a crate of this repository, and after a colon the crates that it uses.
    text = (ROOT / "crates.txt").read_text()
    names = set(re.sub(r"#.*|:", " ", text).split()) - set(re.findall(r"(?m)^(\w+):", text))
    files = {name: sorted(ported.glob(f"{name}/LICENSE*")) for name in sorted(names)}
    without = [name for name in files if not files[name]]
    if without:
        raise Fault(f"no licence of {without[0]} below {ported}", 3)
    texts = [f"{name}: {file.name}\n\n{file.read_text('utf-8', 'replace')}"
             for name in files for file in files[name]]
    return f"\n{'-' * 80}\n".join(texts)


def manual_files(zsh):
    """Yields the names of the files that `manual.py` writes, and where each goes."""
    for command in [manual.NAME, *manual.COMMANDS]:
        for name, place in zip(manual.file_names(command), PLACES):
            yield name, place.format(command, zsh=zsh)


def stage_manual(tree, program, zsh):
    """Lays out the manual pages and the completions."""
    with tempfile.TemporaryDirectory() as made:
        manual.write(program, pathlib.Path(made))
        for name, place in manual_files(zsh):
            (tree / place).parent.mkdir(parents=True, exist_ok=True)
            shutil.copy(pathlib.Path(made, name), tree / place)


def stage_commands(tree, program):
    """Lays out the program, the commands for authors and the examples."""
    (tree / "bin").mkdir(parents=True)
    shutil.copy(program, tree / "bin/cwtune")
    shutil.copytree(ROOT / "author", tree / SHARE / "author", ignore=LEFT_OUT)
    shutil.copytree(ROOT / "examples", tree / SHARE / "examples", ignore=LEFT_OUT)
    for name in manual.COMMANDS:
        (tree / "bin" / name).symlink_to(pathlib.Path("..", SHARE, "author", name))


def stage_documents(tree, proof):
    """Lays out the documents, the licences and PROVED."""
    shutil.copytree(ROOT / "docs", tree / DOC / "docs")
    for name in ["README.md", "CHANGELOG.md", "LICENSE"]:
        shutil.copy(ROOT / name, tree / DOC)
    (tree / DOC / "LICENSES-of-libraries").write_text(licences(kit_folder() / "rattle"), "utf-8")
    (tree / DOC / "PROVED").write_text(proof, "utf-8")


def stage(tree, build, zsh=ZSH):
    """Lays out the release in a folder, as below /usr or /usr/local. Returns its version."""
    version = manual.version_of(str(build.path))
    stage_commands(tree, build.path)
    stage_manual(tree, str(build.path), zsh)
    stage_documents(tree, build.proof)
    set_modes(tree)
    return version


def set_modes(tree):
    """Lets everybody read what is in a tree, and run what the owner may: the checkout and the
    program may be private."""
    for path in tree.rglob("*"):
        may_run = path.parent == tree / "bin" or path.stat().st_mode & 0o100
        path.chmod(0o755 if may_run else 0o644)


def files_of(tree):
    """Returns the paths of the files of a tree, sorted."""
    return sorted(path for path in tree.rglob("*") if path.is_file())


def checksums(tree):
    """Returns the checksums of the files of a tree, as `sha256sum -c` reads them."""
    return "".join(f"{sha256(path)}  {path.relative_to(tree)}\n" for path in files_of(tree))


def pack(folder, build):
    """Packs the release as a tar file, with a file of its checksum. Returns the paths."""
    with tempfile.TemporaryDirectory() as name:
        tree = pathlib.Path(name, "tree")
        version = stage(tree, build)
        (tree / "README").write_text(TAR_README)
        (tree / "SHA256SUMS").write_text(checksums(tree))
        title = f"cwtune-{version}-linux-x86_64"
        tar = folder / f"{title}.tar.gz"
        with (whole_file(tar, "wb") as packed,
              gzip.GzipFile("", "wb", fileobj=packed, mtime=0) as file,
              tarfile.open(fileobj=file, mode="w") as entries):
            for path in files_of(tree):
                entries.add(path, f"{title}/{path.relative_to(tree)}", filter=without_maker)
    checksum = folder / f"{tar.name}.sha256"
    with whole_file(checksum) as file:
        file.write(f"{sha256(tar)}  {tar.name}\n")
    return [tar, checksum]


def without_maker(entry):
    """Leaves out of a tar file who made it and when, so that the same files make the same bytes."""
    entry.uid = entry.gid = entry.mtime = 0
    entry.uname = entry.gname = "root"
    return entry


def debian(folder, build):
    """Makes a Debian package. Returns its path in a list."""
    with tempfile.TemporaryDirectory() as work:
        tree = pathlib.Path(work, "tree")
        version = stage(tree / "usr", build, DEBIAN_ZSH)
        shutil.copyfile(ROOT / "LICENSE", tree / "usr" / DOC / "copyright")
        # Debian's Python runs the commands, whatever else is on the PATH.
        for name in manual.COMMANDS:
            command = tree / "usr" / SHARE / "author" / name
            command.write_text(command.read_text().replace("/usr/bin/env python3",
                                                           "/usr/bin/python3", 1))
        (tree / "DEBIAN").mkdir()
        (tree / "DEBIAN/control").write_text(DEBIAN_CONTROL.format(
            version=version, proof=build.proof.partition("\n")[0]), "utf-8")
        (tree / "DEBIAN/prerm").write_text(DEBIAN_PRERM)
        (tree / "DEBIAN/prerm").chmod(0o755)
        package = folder / f"cwtune_{version}_amd64.deb"
        output_of(["dpkg-deb", "--root-owner-group", "--build", tree, package])
    return [package]


def install(prefix, build):
    """Puts the release below a folder such as /usr/local, in place of an older one.

    The list of its files, and of the folders that it makes, comes first, so that `uninstall` can
    remove what a kill has left. Returns the path of the program in a list.
    """
    with tempfile.TemporaryDirectory() as name:
        tree = pathlib.Path(name, "tree")
        stage(tree, build)
        if (prefix / INSTALLED).is_file():
            uninstall(prefix)
        placed = [INSTALLED, *(path.relative_to(tree) for path in files_of(tree))]
        made = sorted({folder for path in placed for folder in path.parents
                       if not (prefix / folder).exists()})
        lines = [*(f"{folder}/" for folder in made), *placed]
        (tree / INSTALLED).write_text("".join(f"{line}\n" for line in lines), "utf-8")
        for path in placed:
            (prefix / path).parent.mkdir(parents=True, exist_ok=True)
            (prefix / path).unlink(missing_ok=True)
            shutil.copy(tree / path, prefix / path, follow_symlinks=False)
    return [prefix / "bin/cwtune"]


def uninstall(prefix):
    """Removes the files that `install` put below the folder, their list last, and then the folders
    that it made and that are empty."""
    try:
        lines = (prefix / INSTALLED).read_text("utf-8").splitlines()
    except FileNotFoundError:
        raise Fault(f"cwtune is not installed below {prefix}", 2) from None
    for line in reversed(lines):
        if line.endswith("/__init__.py"):
            shutil.rmtree((prefix / line).with_name("__pycache__"), ignore_errors=True)
        if line.endswith("/"):
            with contextlib.suppress(OSError):  # not empty, or not there
                (prefix / line).rmdir()
        else:
            with contextlib.suppress(FileNotFoundError, NotADirectoryError):
                (prefix / line).unlink()


# What to do with a build, by the first word; the paths that are returned are printed.
ACTIONS = {"tar": pack, "deb": debian, "install": install}


def main():
    parser = module_parser("release.dist", __doc__)
    parser.add_argument("what", choices=[*ACTIONS, "uninstall"], help="what to do",
                        metavar="|".join([*ACTIONS, "uninstall"]))
    parser.add_argument("folder", type=pathlib.Path, metavar="FOLDER",
                        help="where the packed files go, or below which cwtune is installed")
    parser.add_argument("--built", type=pathlib.Path, metavar="FILE",
                        help="a program that was built before")
    parser.add_argument("--digest", metavar="SHA256", help="the SHA-256 digest that it has")
    parser.add_argument("--proved", type=pathlib.Path, metavar="FILE",
                        help="the file PROVED of a release with this program")
    args = parser.parse_args()
    os.umask(0o022)  # what is packed or installed is for everybody
    if bool(args.built) != bool(args.digest) or args.proved and not args.built:
        parser.error("give --built and --digest, and --proved with both")
    folder = args.folder.expanduser()  # not every shell does so in `make install PREFIX=~/..`
    if args.what == "uninstall":
        uninstall(folder)
        return
    build = build_of(args.built, args.digest, args.proved)
    folder.mkdir(parents=True, exist_ok=True)
    for path in ACTIONS[args.what](folder, build):
        print(path)


if __name__ == "__main__":
    run_tool(main)
