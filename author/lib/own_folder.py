"""Makes the folder in which a command keeps its work, and goes on in it after a kill.

The folder is locked while the command is at work in it. Its mark, a file of JSON, says which
command made it and of what, so that no folder of somebody else is touched.

A folder may come from a stranger, with links where the command writes. The path to it may go
through links, but the folder and its rooms, the folders in it, have to be real ones of the user.
What has a name that the command uses has to be a regular file of the user, else it is refused by
name. What has another name is left alone. All is done by the descriptors of the folders, so nothing
is written or removed through a link.
"""
import contextlib, dataclasses, errno, fcntl, json, os, pathlib, re, stat

from .endings import Fault
from .regular import digest_of, kind_of, read_regular, sha256_of
from .schema import Malformed, from_json
from .writing import naming, replacing

# More than any file of JSON that a command makes has.
MOST_JSON_BYTES = 1 << 26


def told_input(kind, old):
    """Returns how a message names an input that was another one: an option with its old value."""
    value = "given" if old is True else old or "not given"
    return f"{kind} was {value}" if kind.startswith("--") else kind


def untouched(shown, what):
    """Returns the fault of something that is not the user's own file or folder."""
    return Fault(f"{shown} is {what}, and is not touched", 2)


class Room:
    """A real folder of the user, held open until `close`. Faults name it `shown`."""

    def __init__(self, path, shown, parent=None):
        self.shown = shown
        try:
            self.descriptor = os.open(path, os.O_RDONLY | os.O_DIRECTORY | os.O_NOFOLLOW,
                                      dir_fd=parent)
        except OSError as error:
            if error.errno in (errno.ELOOP, errno.ENOTDIR):
                mode = os.stat(path, dir_fd=parent, follow_symlinks=False).st_mode
                raise untouched(shown, kind_of(mode)) from None
            raise
        if os.fstat(self.descriptor).st_uid != os.geteuid():
            self.close()
            raise untouched(shown, "of another user")

    def close(self):
        os.close(self.descriptor)

    def names(self, pattern):
        return [name for name in os.listdir(self.descriptor) if re.fullmatch(pattern, name)]

    def refuse_strange(self, pattern):
        """Refuses what has a name by the pattern and is not a regular file of the user."""
        for name in self.names(pattern):
            state = os.stat(name, dir_fd=self.descriptor, follow_symlinks=False)
            if not stat.S_ISREG(state.st_mode):
                raise untouched(f"{self.shown}/{name}", kind_of(state.st_mode))
            if state.st_uid != os.geteuid():
                raise untouched(f"{self.shown}/{name}", "of another user")

    def arguments_of(self, name):
        """Returns the arguments by which the functions of `regular` open a file."""
        return {"path": name, "flags": os.O_NOFOLLOW, "folder": self.descriptor,
                "shown": f"{self.shown}/{name}"}

    def remove(self, pattern):
        for name in self.names(pattern):
            os.unlink(name, dir_fd=self.descriptor)


class OwnFolder:
    """A folder of the command `COMMAND`, locked until the command ends.

    `MARK` is the name of its mark, and `SCHEMA` its dataclass, with the entry `by`. `THROWN` and
    `INSTEAD` are words of the fault for other inputs: what --anew throws away, and which word of
    the command names another folder. `given_path` is its path as the user or the command gives it,
    and `path` the whole one. `rooms()` returns, by the name of each room, the pattern of the names
    that the command uses in it; the empty name is the folder itself, without the mark.
    """

    COMMAND = MARK = THROWN = INSTEAD = ""
    SCHEMA = None
    VERSION = 1

    def __init__(self, given_path):
        self.given_path, self.path = given_path, real_parent(given_path)
        with naming(given_path):
            with contextlib.suppress(FileExistsError):
                self.path.mkdir()
            self.top = Room(self.path, given_path)
            try:
                fcntl.flock(self.top.descriptor, fcntl.LOCK_EX | fcntl.LOCK_NB)
            except BlockingIOError:
                raise Fault(f"another {self.COMMAND} is at work in {given_path}", 2) from None

    def patterns(self):
        """Yields the rooms, each with the pattern of its names and those of unfinished files."""
        for room, names in self.rooms().items():
            more = "" if room else rf"|{re.escape(self.MARK)}\.\d+\.new"
            yield room, rf"({names})(\.\d+\.new)?{more}"

    def maker(self):
        return f"{self.COMMAND} {self.VERSION}"

    @contextlib.contextmanager
    def room(self, name):
        """Gives a block the room of this name, or None if it is not there."""
        if not name:
            yield self.top
            return
        try:
            room = Room(name, f"{self.given_path}/{name}", self.top.descriptor)
        except FileNotFoundError:
            room = None
        try:
            yield room
        finally:
            if room:
                room.close()

    @contextlib.contextmanager
    def room_of(self, name):
        """Gives a block the room of the file `name`, and the name within it."""
        room_name, _, file_name = name.rpartition("/")
        with self.room(room_name) as room:
            if room is None:
                raise FileNotFoundError(errno.ENOENT, os.strerror(errno.ENOENT), name)
            yield room, file_name

    def read_mark(self):
        """Returns the mark, None if the folder is new. Refuses a folder of another command."""
        if not self.top.names(rf"(?s)(?!{re.escape(self.MARK)}\.\d+\.new$).*"):
            return None
        refusal = f"{self.given_path} is not a folder of this {self.COMMAND}, and is not touched"
        try:
            mark = self.load(self.MARK, self.SCHEMA)
        except FileNotFoundError:
            raise Fault(refusal, 2) from None
        except Malformed as fault:
            raise Fault(f"{refusal} ({self.MARK}: {fault})", 2) from None
        if mark.by != self.maker():
            raise Fault(refusal, 2)
        return mark

    def load(self, name, schema):
        """Returns what a file of JSON says by a schema. Raises Malformed or FileNotFoundError."""
        with self.room_of(name) as (room, file_name):
            return from_json(schema, read_regular(MOST_JSON_BYTES, **room.arguments_of(file_name)))

    def write_mark(self, mark):
        with self.whole_file(self.MARK) as file:
            json.dump(dataclasses.asdict(mark), file)

    @contextlib.contextmanager
    def whole_file(self, name, mode="w"):
        with (naming(f"{self.given_path}/{name}"), self.room_of(name) as (room, file_name),
              replacing(room.descriptor, file_name, mode) as file):
            yield file

    def open_to_append(self, name):
        """Opens a file to read and append. Refuses a hard link: the other name would change too."""
        with self.room_of(name) as (room, file_name):
            descriptor = os.open(file_name, os.O_RDWR | os.O_APPEND | os.O_CREAT | os.O_NOFOLLOW,
                                 0o666, dir_fd=room.descriptor)
        file = open(descriptor, "r+b")
        if os.fstat(descriptor).st_nlink > 1:
            file.close()
            raise untouched(f"{self.given_path}/{name}", "another name of a file")
        return file

    def write(self, name, text):
        with self.whole_file(name, "wb") as file:
            file.write(text)

    def digest(self, name):
        """Returns the size and the digest of a file, or None if it is not there."""
        try:
            with self.room_of(name) as (room, file_name):
                return digest_of(**room.arguments_of(file_name))
        except FileNotFoundError:
            return None

    def sha256(self, name):
        return sha256_of(**self.top.arguments_of(name))

    def refuse_strange(self):
        """Refuses what the folder has in place of a file or a room of the command."""
        for name, pattern in self.patterns():
            with self.room(name) as room:
                if room:
                    room.refuse_strange(pattern)

    def remove_all(self):
        """Removes the command's files and rooms. The mark says so before: a kill may come."""
        for name, pattern in self.patterns():
            with self.room(name) as room:
                if room:
                    room.remove(pattern)
            if name:
                with contextlib.suppress(OSError):  # it is not there, or has files of others
                    os.rmdir(name, dir_fd=self.top.descriptor)

    def refuse_other_inputs(self, recorded, inputs, complaint):
        """Refuses, with `complaint`, a folder that recorded other inputs than these."""
        others = [told_input(kind, recorded.get(kind))
                  for kind, value in inputs.items() if recorded.get(kind) != value]
        if others:
            raise Fault(f"{complaint} ({', '.join(others)}): give --anew to throw {self.THROWN} "
                        f"away and begin again, or another {self.INSTEAD}", 2)


def real_parent(path):
    """Returns a path without links in its folders; its last name may be one."""
    folder, name = os.path.split(str(path).rstrip("/") or "/")
    if name in ("", ".", ".."):
        return pathlib.Path(os.path.realpath(path))
    return pathlib.Path(os.path.realpath(folder or "."), name)
