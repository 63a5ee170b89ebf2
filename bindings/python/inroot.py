"""Paths below a directory, of which nothing leads out: libinroot(7) by ctypes, for Python 3.9 and later.

A Root is a directory. Its methods are named as those of pathlib, os and shutil, and take a path below it: an absolute
path and an absolute link begin at the root, and `..` at the root is the root, whoever renames directories meanwhile.

    with inroot.Root("/srv/box") as root:
        root.mkdir("var/log", parents=True, exist_ok=True)
        root.write_text("var/log/first", "begun")

A path is a str, bytes or an os.PathLike, and becomes bytes as by os.fsencode(). One with a NUL is a ValueError. A call
that fails raises an OSError with the kernel's number, why it failed, and the path as it was given. Where a signal
interrupts a call that looks or opens, the call is made again, as by the functions of os. One that changes something
raises InterruptedError, and nobody knows whether it has.

The library is found as libinroot.so.0.2 where the loader looks, or is the file that INROOT_LIBRARY_PATH names.
"""

import ctypes
import enum
import errno
import io
import os
import pathlib
import stat

__all__ = ["Flags", "Proc", "Rename", "Root", "proc_open", "proc_readlink", "reopen", "version"]

_NAME = "libinroot.so.0.2"
_NOFOLLOW = 4


class Flags(enum.IntFlag):
    """Restrictions of each call of a Root."""

    BENEATH = 1         # refuses what would lead out of the root: EXDEV
    NO_LINKS = 2        # refuses every symbolic link on the way: ELOOP
    NO_RETRY = 8        # makes one try, where others are in the way
    NO_XDEV = 128       # refuses to leave the root's mount: EXDEV
    EXACT = 16384       # walks by single steps, and asks at which names the object stands


class Rename(enum.IntFlag):
    """How Root.rename() treats an entry that is there already. Without any it is replaced."""

    NOREPLACE = 1       # EEXIST
    EXCHANGE = 2        # the two entries are exchanged
    WHITEOUT = 4        # a whiteout is left behind, by itself or together with NOREPLACE


class Proc(enum.IntEnum):
    """Where a path of proc_open() and proc_readlink() begins; or at the process that has a number above 0."""

    ROOT = -201
    SELF = -202
    THREAD_SELF = -203


def _load():
    library = ctypes.CDLL(os.environ.get("INROOT_LIBRARY_PATH") or _NAME)
    number, text, long = ctypes.c_int, ctypes.c_char_p, ctypes.c_ssize_t
    for name, given, taken in (
        ("version", text, ()),
        ("last_error_text", number, (text, ctypes.c_size_t)),
        ("open", number, (number, text, number)),
        ("openat", number, (number, text, number, ctypes.c_uint, number)),
        ("reopen", number, (number, number)),
        ("proc_open", number, (number, text, number)),
        ("proc_readlink", long, (number, text, text, ctypes.c_size_t)),
        ("readlink", long, (number, text, number, text, ctypes.c_size_t)),
        ("fchmod", number, (number, ctypes.c_uint)),
        ("futimens", number, (number, ctypes.c_void_p)),
        ("mkdir", number, (number, text, ctypes.c_uint, number)),
        ("mkdir_all", number, (number, text, ctypes.c_uint, number)),
        ("mknod", number, (number, text, ctypes.c_uint, ctypes.c_uint64, number)),
        ("symlink", number, (number, text, text, number)),
        ("link", number, (number, text, text, number)),
        ("unlink", number, (number, text, number)),
        ("rmdir", number, (number, text, number)),
        ("remove_all", long, (number, text, number)),
        ("rename", number, (number, text, text, number, number)),
    ):
        call = library["inroot_" + name]
        call.restype, call.argtypes = given, taken
        setattr(library, name, call)
    return library


_library = _load()


def version():
    """The version of the library that is loaded."""
    return _library.version().decode()


def _bytes(path):
    path = os.fsencode(path)
    if b"\0" in path:
        raise ValueError("embedded null byte")
    return path


def _number(value, least=-1 << 31, beyond=1 << 31):
    """The number; one that ctypes would cut to its lower bits is refused."""
    if not least <= value < beyond:
        raise OverflowError(f"too large a number: {value}")
    return value


def _checked(result, path, second=None):
    """What a call gave; an OSError of the class that its number has where it failed, with the library's sentence."""
    if result >= 0:
        return result
    why = ctypes.create_string_buffer(2048)
    _library.last_error_text(why, len(why))
    raise OSError(-result, why.value.decode(), path, None, second)


def _found(path, call, *given):
    """What a call gave that changes nothing, and is made again where a signal interrupts it."""
    while (result := call(*given)) == -errno.EINTR:
        pass
    del given       # or an error's traceback would keep a closed root's descriptor open
    return _checked(result, path)


def _text(path, call, *given):
    """The text that a call reads: a str, or bytes where the path is bytes."""
    text = ctypes.create_string_buffer(4096)
    try:
        length = _found(path, call, *given, text, len(text))
    finally:
        del given
    return text.raw[:length] if isinstance(os.fspath(path), bytes) else os.fsdecode(text.raw[:length])


def reopen(fd, flags):
    """Opens the object of a descriptor once more, for use by the flags of open(2), and gives a descriptor."""
    return _found(None, _library.reopen, fd, _number(flags))


def proc_open(base, path, flags):
    """Opens a file of the proc(5) by which the calls go, and gives a descriptor: inroot_proc_open(3). EXDEV where
    something is mounted over it or over a part of the path."""
    return _found(path, _library.proc_open, _number(base), _bytes(path), _number(flags))


def proc_readlink(base, path):
    """The text of a link there."""
    return _text(path, _library.proc_readlink, _number(base), _bytes(path))


class _Descriptor:
    """A descriptor that is closed once nothing refers to it: each call of the library refers to it until it ends."""

    def __init__(self, fd):
        self._as_parameter_ = fd

    def __del__(self):
        os.close(self._as_parameter_)


class Root:
    """A directory, and calls below it. Any number of threads may make calls. Those that are made as one of them calls
    close() end as they would have; each later one is a ValueError."""

    _descriptor = None

    def __init__(self, directory, flags=Flags(0)):
        """Opens a directory, whose own path is walked as open(2) does; or takes a descriptor of one, which stays the
        caller's. The flags restrict each call."""
        self._flags = int(flags)
        if self._flags & ~sum(Flags):
            raise ValueError(f"not flags of a root: {flags!r}")
        if isinstance(directory, int):
            self._descriptor = _Descriptor(os.dup(directory))
        else:
            self._descriptor = _Descriptor(os.open(directory, os.O_PATH | os.O_DIRECTORY | os.O_CLOEXEC))

    def _open(self):
        descriptor = self._descriptor
        if descriptor is None:
            raise ValueError("I/O operation on closed root")
        return descriptor

    def fileno(self):
        """The root's own descriptor."""
        return self._open()._as_parameter_

    def close(self):
        """Closes the root's descriptor, behind the last call that is being made. Files that were opened stay open."""
        self._descriptor = None

    def __enter__(self):
        self.fileno()
        return self

    def __exit__(self, *_):
        self.close()

    def __reduce__(self):
        """A copy would have the descriptor's number, and close it a second time."""
        raise TypeError("a Root can't be copied or pickled; Root(root.fileno()) is a second one")

    # ---- what is there

    def open_descriptor(self, path, flags, mode=0o666):
        """Opens what the path means by the flags of open(2), and gives a descriptor, as os.open() does. With os.O_PATH
        it is a handle of the object alone."""
        makes = flags & os.O_CREAT or flags & os.O_TMPFILE == os.O_TMPFILE
        mode = stat.S_IMODE(mode) if makes else 0
        if flags & os.O_EXCL:
            return _checked(_library.openat(self._open(), _bytes(path), _number(flags), mode, self._flags), path)
        return _found(path, _library.openat, self._open(), _bytes(path), _number(flags), mode, self._flags)

    def open(self, path, mode="r", buffering=-1, encoding=None, errors=None, newline=None):
        """Opens a file as the function open() of Python does. The file's `name` is its descriptor's number, since its
        path leads elsewhere for whoever opens that without the root."""
        fds = []

        def opener(_, flags):
            fds.append(self.open_descriptor(path, flags))
            if stat.S_ISDIR(os.fstat(fds[0]).st_mode):
                os.close(fds[0])
                raise OSError(errno.EISDIR, os.strerror(errno.EISDIR), path)
            return fds[0]

        file = io.open("", mode, buffering, encoding, errors, newline, opener=opener)
        buffered = getattr(file, "buffer", file)
        getattr(buffered, "raw", buffered).name = fds[0]
        return file

    def read_bytes(self, path):
        """The whole contents of a file."""
        with self.open(path, "rb") as file:
            return file.read()

    def read_text(self, path, encoding=None, errors=None):
        """The whole contents of a file, as text."""
        with self.open(path, "r", encoding=encoding, errors=errors) as file:
            return file.read()

    def _status(self, path, more):
        fd = _found(path, _library.open, self._open(), _bytes(path), self._flags | more)
        try:
            return os.fstat(fd)
        finally:
            os.close(fd)

    def stat(self, path):
        """What os.fstat() says of the object that the path means."""
        return self._status(path, 0)

    def lstat(self, path):
        """The same, of a link at the end of the path of the link itself."""
        return self._status(path, _NOFOLLOW)

    def _kind(self, path, more=0):
        """The kind of what the path means, and 0 of what isn't there."""
        try:
            return stat.S_IFMT(self._status(path, more).st_mode)
        except OSError as error:
            if error.errno in (errno.ENOENT, errno.ENOTDIR, errno.ELOOP):
                return 0
            raise

    def exists(self, path):
        """Whether the path leads to an object."""
        return self._kind(path) != 0

    def is_dir(self, path):
        """Whether the path leads to a directory."""
        return self._kind(path) == stat.S_IFDIR

    def is_file(self, path):
        """Whether the path leads to a regular file."""
        return self._kind(path) == stat.S_IFREG

    def is_symlink(self, path):
        """Whether the path ends in a symbolic link."""
        return self._kind(path, _NOFOLLOW) == stat.S_IFLNK

    def iterdir(self, path="."):
        """The paths of a directory's entries below this root, in no order: each a pathlib.PurePosixPath, which the
        methods here take and which by itself opens nothing."""
        fd = self.open_descriptor(path, os.O_RDONLY | os.O_DIRECTORY)
        try:
            names = os.listdir(fd)
        finally:
            os.close(fd)
        directory = pathlib.PurePosixPath(os.fsdecode(path))
        return iter([directory / name for name in names])

    def readlink(self, path):
        """The text of the link at the end of the path: a str, or bytes where the path is bytes."""
        return _text(path, _library.readlink, self._open(), _bytes(path), self._flags)

    # ---- what is made and changed

    def write_bytes(self, path, data):
        """Writes a whole file, which is made where it is missing, and gives the number of bytes."""
        data = memoryview(data)     # or it is a TypeError, before the file is emptied
        with self.open(path, "wb") as file:
            return file.write(data)

    def write_text(self, path, data, encoding=None, errors=None):
        """The same of text, and gives the number of characters."""
        if not isinstance(data, str):
            raise TypeError(f"data must be str, not {type(data).__name__}")
        with self.open(path, "w", encoding=encoding, errors=errors) as file:
            return file.write(data)

    def chmod(self, path, mode):
        """Sets the mode of the object that the path means."""
        fd = _found(path, _library.open, self._open(), _bytes(path), self._flags)
        try:
            _checked(_library.fchmod(fd, stat.S_IMODE(mode)), path)
        finally:
            os.close(fd)

    def mkdir(self, path, mode=0o777, parents=False, exist_ok=False):
        """Makes a directory. With `parents`, first those above it that are missing, none through a link, of the mode
        0o777; with `exist_ok` it is no error that it is there."""
        if parents:
            above = os.path.dirname(_bytes(path).rstrip(b"/"))
            if above:
                os.close(_checked(_library.mkdir_all(self._open(), above, 0o777, self._flags), path))
        try:
            _checked(_library.mkdir(self._open(), _bytes(path), stat.S_IMODE(mode), self._flags), path)
        except OSError:     # which need not be EEXIST, as of `.` or where nothing may be made
            if not (exist_ok and self.is_dir(path)):
                raise

    def mknod(self, path, mode=0o600, device=0):
        """Makes an entry as os.mknod() does: an empty file, a FIFO, a socket or a device."""
        mode = _number(mode) if stat.S_IFMT(mode) else mode | stat.S_IFREG
        device = _number(device, 0, 1 << 64)
        _checked(_library.mknod(self._open(), _bytes(path), mode, device, self._flags), path)

    def touch(self, path, mode=0o666, exist_ok=True):
        """Makes an empty file, or sets the times of what is there to the present."""
        makes = os.O_CREAT | os.O_WRONLY | (0 if exist_ok else os.O_EXCL)
        fd = self.open_descriptor(path, os.O_PATH if exist_ok and self.exists(path) else makes, mode)
        try:
            _checked(_library.futimens(fd, None), path)
        finally:
            os.close(fd)

    def symlink_to(self, path, target):
        """Makes the path a symbolic link with the text `target`, which is any text."""
        _checked(_library.symlink(self._open(), _bytes(target), _bytes(path), self._flags), target, path)

    def hardlink_to(self, path, target):
        """Makes the path a second name of what `target` means below the root; of a link at its end, of the link."""
        _checked(_library.link(self._open(), _bytes(target), _bytes(path), self._flags), target, path)

    def rename(self, path, target, flags=Rename(0)):
        """Renames the entry, which stays below the root. One that is there is treated as the flags say."""
        result = _library.rename(self._open(), _bytes(path), _bytes(target), _number(flags), self._flags)
        _checked(result, path, target)

    # ---- what is removed

    def unlink(self, path, missing_ok=False):
        """Removes a non-directory; of a link the link alone."""
        try:
            _checked(_library.unlink(self._open(), _bytes(path), self._flags), path)
        except FileNotFoundError:
            if not missing_ok:
                raise

    def rmdir(self, path):
        """Removes an empty directory."""
        _checked(_library.rmdir(self._open(), _bytes(path), self._flags), path)

    def rmtree(self, path):
        """Removes a directory with all that is below it. NotADirectoryError of anything else, a link too. What others
        put into the directory's place meanwhile is removed as well: of a link the link alone."""
        about = self.lstat(path)
        name = os.fsencode(path).rstrip(b"/")
        # With a slash behind it a link is followed.
        if not stat.S_ISDIR(about.st_mode) or name and stat.S_ISLNK(self.lstat(name).st_mode):
            raise OSError(errno.ENOTDIR, os.strerror(errno.ENOTDIR), path)
        if _checked(_library.remove_all(self._open(), _bytes(path), self._flags), path) == 0:
            raise OSError(errno.ENOENT, os.strerror(errno.ENOENT), path)
