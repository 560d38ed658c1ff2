"""Opens regular files alone: a FIFO would keep a reader waiting, and a device may never end."""
import errno, os, stat

from .endings import Fault
from .schema import Malformed

KINDS = {stat.S_IFLNK: "a link", stat.S_IFIFO: "a FIFO", stat.S_IFSOCK: "a socket",
         stat.S_IFDIR: "a folder", stat.S_IFREG: "a file"}


class NotRegular(Fault):
    """A path that is not of a regular file."""

    def __init__(self, shown):
        super().__init__(f"{shown} is not a regular file", 2)


def kind_of(mode):
    return KINDS.get(stat.S_IFMT(mode), "a device")


def open_regular(path, flags=0, folder=None, shown=None):
    """Opens a regular file to be read, as bytes. `folder` is a descriptor that `path` begins at,
    and `shown` the name for the fault."""
    try:
        descriptor = os.open(path, os.O_RDONLY | os.O_NONBLOCK | flags, dir_fd=folder)
    except OSError as error:
        # A link where O_NOFOLLOW refuses it, or a socket.
        if error.errno in (errno.ELOOP, errno.ENXIO):
            raise NotRegular(shown or path) from None
        raise
    if not stat.S_ISREG(os.fstat(descriptor).st_mode):
        os.close(descriptor)
        raise NotRegular(shown or path)
    return open(descriptor, "rb")


def read_regular(most, *path, **more):
    """Returns what a regular file has. Raises a Malformed if that is more than `most` bytes."""
    with open_regular(*path, **more) as file:
        if os.fstat(file.fileno()).st_size > most or len(text := file.read(most + 1)) > most:
            raise Malformed(f"more than {most} bytes")
        return text


def digest_of(*path, **more):
    """Returns the size and the digest of a file as CERT.inputs has them."""
    import hashlib  # not above: with too little memory for it, it prints a traceback

    with open_regular(*path, **more) as file:
        size = os.fstat(file.fileno()).st_size
        return f"{size} {hashlib.file_digest(file, 'sha256').hexdigest()}"


def sha256_of(*path, **more):
    return digest_of(*path, **more).split()[1]
