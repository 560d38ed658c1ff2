"""Writes files whole or not at all, and removes what a kill has left of that."""
import contextlib, fcntl, os, pathlib, re, shutil, stat, tempfile

from .endings import Fault


@contextlib.contextmanager
def naming(path):
    """Turns an error of the system into a fault that names `path`."""
    try:
        yield
    except OSError as error:
        raise Fault(f"{path}: {error.strerror or error}", 3) from None


@contextlib.contextmanager
def whole_file(path, mode="w"):
    """Opens a new file beside `path`, which replaces `path` once all is written to it.

    After a fault `path` is as it was. Any OSError of the block becomes a fault that names `path`.
    A device or a pipe is opened itself.
    """
    target = pathlib.Path(os.path.realpath(path))
    with naming(path):
        if target.exists() and not target.is_file():
            with open(path, mode) as file:
                yield file
            return
        # NAME.whole.N.new is what `cwtune-spread --merge` puts together.
        remove_left(target.parent, rf"{re.escape(target.name)}(\.whole)?\.(\d+)\.new")
        folder = os.open(target.parent, os.O_PATH | os.O_DIRECTORY)
        try:
            with replacing(folder, target.name, mode) as file:
                yield file
        finally:
            os.close(folder)


@contextlib.contextmanager
def replacing(folder, name, mode):
    """Opens a new file, which replaces the file `name` once all is written. `folder` is a
    descriptor of their folder. A link is replaced itself, and nothing is written through it."""
    new = f"{name}.{os.getpid()}.new"
    try:
        with open_new(folder, new, mode) as file:
            with contextlib.suppress(FileNotFoundError):
                old_mode = os.stat(name, dir_fd=folder, follow_symlinks=False).st_mode
                os.fchmod(file.fileno(), stat.S_IMODE(old_mode))
            yield file
            file.flush()
            os.fsync(file.fileno())
        os.replace(new, name, src_dir_fd=folder, dst_dir_fd=folder)
    except BaseException:
        with contextlib.suppress(OSError):
            os.unlink(new, dir_fd=folder)
        raise


def open_new(folder, name, mode):
    """Opens a file that is not there yet, in the folder of a descriptor, and locks it."""
    file = open(name, mode, opener=lambda path, flags: os.open(
        path, flags | os.O_EXCL | os.O_NOFOLLOW, 0o666, dir_fd=folder))
    with contextlib.suppress(OSError):  # not every file system has locks
        fcntl.flock(file, fcntl.LOCK_EX | fcntl.LOCK_NB)
    return file


def remove_left(folder, pattern):
    """Removes what killed runs of this user have left in a folder, by a pattern of names whose last
    group is the process id of the maker. What a living process made stays, and what is locked: its
    maker may be on another host. Without /proc only the locks protect."""
    with contextlib.suppress(OSError):
        for name in os.listdir(folder):
            match = re.fullmatch(pattern, name)
            pid = match and match.groups()[-1]
            # A file with this process's id is of an earlier one.
            if match and (pid == str(os.getpid()) or not os.path.exists(f"/proc/{pid}")):
                remove_unlocked(os.path.join(folder, name))


def remove_unlocked(path):
    """Removes a file or a folder of this user that nobody has locked."""
    with contextlib.suppress(OSError):
        descriptor = os.open(path, os.O_RDONLY | os.O_NOFOLLOW | os.O_NONBLOCK)
        try:
            state = os.fstat(descriptor)
            fcntl.flock(descriptor, fcntl.LOCK_EX | fcntl.LOCK_NB)
            if state.st_uid == os.geteuid() and stat.S_ISREG(state.st_mode):
                os.unlink(path)
            elif state.st_uid == os.geteuid() and stat.S_ISDIR(state.st_mode):
                shutil.rmtree(path)
        finally:
            os.close(descriptor)


def write_bytes(path, text):
    """Writes a file. A fault names it, also if the disk is full."""
    with naming(path):
        pathlib.Path(path).write_bytes(text)


@contextlib.contextmanager
def temporary_file(name, text):
    """Gives a block the path of a file with a text, in a folder that is made for it. A fault of the
    block calls the file `name`."""
    with temporary_folder() as folder:
        path = str(pathlib.Path(folder, pathlib.Path(name).name))
        write_bytes(path, text)
        try:
            yield path
        except Fault as fault:
            fault.args = (str(fault).replace(path, str(name)),)
            raise


@contextlib.contextmanager
def temporary_folder():
    """Makes a folder for the block, and removes those of runs that were killed."""
    remove_left(tempfile.gettempdir(), r"cwtune-pid-(\d+)-\w+")
    with tempfile.TemporaryDirectory(prefix=f"cwtune-pid-{os.getpid()}-") as folder:
        lock = os.open(folder, os.O_RDONLY)
        try:
            fcntl.flock(lock, fcntl.LOCK_EX | fcntl.LOCK_NB)
            yield folder
        finally:
            os.close(lock)
