"""Tests of inroot.py: each method beside the function of Python that has its name, links that lead out, hostile names,
and descriptors."""

import copy
import errno
import multiprocessing
import os
import pathlib
import pickle
import shutil
import signal
import stat
import sys
import tempfile
import threading
import time
import unittest

sys.dont_write_bytecode = True
import inroot  # noqa: E402

PATHS = ("f", "f/x", "d", "d/", "d/f", "d/../f", "d/new", "full", "new", "none/x", "to-f", "to-d", "to-none", "loop")


def below(top):
    """All that is below a directory: names, modes, links' texts and contents."""
    rows = []
    for directory, directories, files in os.walk(top):
        for name in directories + files:
            path = os.path.join(directory, name)
            about = os.lstat(path)
            text = os.readlink(path) if stat.S_ISLNK(about.st_mode) else None
            data = pathlib.Path(path).read_bytes() if stat.S_ISREG(about.st_mode) else None
            rows.append((os.path.relpath(path, top), about.st_mode, about.st_nlink, text, data))
    return sorted(rows)


def told(call, *given):
    """What a call gives, or the error that it raises."""
    try:
        return call(*given)
    except OSError as error:
        return type(error), error.errno
    except UnicodeDecodeError as error:
        return type(error)


class Room(unittest.TestCase):
    def setUp(self):
        self.top = tempfile.mkdtemp()
        self.addCleanup(shutil.rmtree, self.top)

    def at(self, *names):
        return os.path.join(self.top, *names)

    def fails(self, number, call, *given, **named):
        with self.assertRaises(OSError) as raised:
            call(*given, **named)
        self.assertEqual(raised.exception.errno, number, given)
        return raised.exception


class AsPython(Room):
    """On a plain tree the same is given and left behind as by the function of Python."""

    def make(self, name):
        top = self.at(name)
        shutil.rmtree(top, ignore_errors=True)
        os.makedirs(os.path.join(top, "full", "x"))
        os.mkdir(os.path.join(top, "d"))
        pathlib.Path(top, "f").write_text("text")
        pathlib.Path(top, "d", "f").write_bytes(b"\xff")
        for text, link in (("f", "to-f"), ("d", "to-d"), ("none", "to-none"), ("loop", "loop")):
            os.symlink(text, os.path.join(top, link))
        return top

    def each(self, mine, python, paths=PATHS):
        for path in paths:
            self.both(path, mine, python)

    def both(self, path, mine, python):
        with self.subTest(path=path), inroot.Root(self.make("mine")) as root:
            top = self.make("python")
            self.assertEqual(told(mine, root, path), told(python, top + "/" + path))
            self.assertEqual(below(self.at("mine")), below(top))

    def test_contents(self):
        self.each(inroot.Root.read_bytes, lambda path: pathlib.Path(path).read_bytes())
        self.each(lambda root, path: root.read_text(path, "utf-8"), lambda path: pathlib.Path(path).read_text("utf-8"))
        self.each(lambda root, path: root.read_text(path, "utf-8", "replace"),
                  lambda path: pathlib.Path(path).read_text("utf-8", "replace"))
        self.each(lambda root, path: root.write_bytes(path, b"new"),
                  lambda path: pathlib.Path(path).write_bytes(b"new"))
        self.each(lambda root, path: root.write_text(path, "neu\n"),
                  lambda path: pathlib.Path(path).write_text("neu\n"))

    def test_modes_of_open(self):
        def used(file):
            with file:
                return (file.readable(), file.writable(), file.tell(), type(file).__name__,
                        file.write("n" if hasattr(file, "encoding") else b"n") if file.writable() else file.read())

        for mode in ("r", "rb", "r+", "w", "w+b", "a", "ab+", "x", "xb"):
            for path in ("f", "d", "new", "to-none", "none/x"):
                self.both(path, lambda root, path: used(root.open(path, mode)), lambda path: used(open(path, mode)))
        with inroot.Root(self.make("mine")) as root:
            for given in (("f", "rw"), ("f", "wb", -1, "utf-8"), ("f", "")):
                with self.assertRaises(ValueError):
                    root.open(*given)
            self.assertEqual(root.read_bytes("f"), b"text")

    def test_looks(self):
        def about(told):
            return told.st_mode, told.st_nlink, told.st_size if stat.S_ISREG(told.st_mode) else 0

        self.each(lambda root, path: about(root.stat(path)), lambda path: about(os.stat(path)))
        self.each(lambda root, path: about(root.lstat(path)), lambda path: about(os.lstat(path)))
        for name in ("exists", "is_dir", "is_file", "is_symlink"):
            self.each(getattr(inroot.Root, name), lambda path: getattr(pathlib.Path(path), name)())
        self.each(inroot.Root.readlink, os.readlink)
        self.each(lambda root, path: sorted(found.name for found in root.iterdir(path)),
                  lambda path: sorted(os.listdir(path)))

    def test_directories(self):
        for given in ((0o777, False, False), (0o700, True, False), (0o750, True, True), (0o711, False, True)):
            self.each(lambda root, path: root.mkdir(path, *given), lambda path: pathlib.Path(path).mkdir(*given))
        self.both("d/x/y/z", lambda root, path: root.mkdir(path, 0o700, parents=True),
                  lambda path: pathlib.Path(path).mkdir(0o700, parents=True))
        self.each(inroot.Root.rmdir, os.rmdir)
        with inroot.Root(self.make("mine")) as root:
            for path in ("/", ".", "d/..", "to-d/."):
                self.fails(errno.EINVAL, root.mkdir, path)
                root.mkdir(path, parents=True, exist_ok=True)

    def test_entries(self):
        def touched(top, call, *given, **named):
            os.utime(top + "/f", (1, 1))
            os.utime(top + "/d", (1, 1))
            call(*given, **named)
            return [os.stat(os.path.join(top, path)).st_mtime > 1 for path in ("f", "d")]

        # Of a slash behind what is made the library says ENOTDIR, whatever is there.
        paths = [path for path in PATHS if path != "d/"]
        for exist_ok in (True, False):
            self.each(lambda root, path: touched(self.at("mine"), root.touch, path, 0o640, exist_ok),
                      lambda path: touched(self.at("python"), pathlib.Path(path).touch, 0o640, exist_ok),
                      PATHS if exist_ok else paths)
        for mode in (0o600, stat.S_IFIFO | 0o620, stat.S_IFSOCK | 0o600, stat.S_IFREG | 0o644):
            self.both("new", lambda root, path: root.mknod(path, mode), lambda path: os.mknod(path, mode))
        self.each(inroot.Root.mknod, os.mknod, paths)

    def test_removals_and_modes(self):
        # Of a slash behind what is removed the library says ENOTDIR, whatever is there.
        for path in (path for path in PATHS if path != "d/"):
            self.both(path, inroot.Root.unlink, os.unlink)
            self.both(path, lambda root, path: root.unlink(path, missing_ok=True),
                      lambda path: pathlib.Path(path).unlink(missing_ok=True))
        self.each(lambda root, path: root.chmod(path, 0o100640), lambda path: os.chmod(path, 0o100640))
        for path in ("f", "d", "full", "none", "none/x"):
            self.both(path, inroot.Root.rmtree, shutil.rmtree)

    def test_names(self):
        for path in ("f", "d", "new", "to-none", "full"):
            for other in PATHS:
                if other != "d/":
                    self.both(other, lambda root, other: root.rename(path, other),
                              lambda other: os.rename(self.at("python", path), other))
                    self.both(other, lambda root, other: root.hardlink_to(other, path),
                              lambda other: os.link(self.at("python", path), other, follow_symlinks=False))
                    self.both(other, lambda root, other: root.symlink_to(other, path),
                              lambda other: os.symlink(path, other))


class Hostile(Room):
    """A tree whose links lead out of its root."""

    def setUp(self):
        super().setUp()
        os.makedirs(self.at("box/a/b"))
        os.mkdir(self.at("outside"))
        pathlib.Path(self.at("outside/secret")).write_text("secret")
        pathlib.Path(self.at("box/a/b/f")).write_text("inside")
        for text, link in (("/a/../../a/b", "in"), ("../outside", "up"), (self.at("outside"), "abs"), ("loop", "loop")):
            os.symlink(text, self.at("box", link))
        self.root = inroot.Root(self.at("box"))
        self.addCleanup(self.root.close)
        self.outside = below(self.at("outside"))

    def tearDown(self):
        self.assertEqual(below(self.at("outside")), self.outside)

    def test_what_is_inside_is_found(self):
        for path in ("a/b/f", "in/f", "/a/../../in/f", "../../a/b/f", b"in/f", pathlib.PurePosixPath("in/f")):
            self.assertEqual(self.root.read_text(path), "inside", path)
        self.assertEqual(self.root.stat("in/f").st_ino, os.stat(self.at("box/a/b/f")).st_ino)

    def test_no_path_leads_out(self):
        root = self.root
        for path in ("up/secret", "abs/secret", "../outside/secret", "in/../../../outside/secret"):
            for call in (root.open, root.read_bytes, root.stat, root.lstat, root.unlink, root.rmdir, root.rmtree,
                         root.mkdir, root.readlink, root.iterdir):
                self.fails(errno.ENOENT, call, path)
            self.fails(errno.ENOENT, root.write_text, path, "stolen")
            self.fails(errno.ENOENT, root.chmod, path, 0o777)
            self.fails(errno.ENOENT, root.rename, path, "stolen")
            self.fails(errno.ENOENT, root.rename, "a/b/f", path)
            self.fails(errno.ENOENT, root.hardlink_to, "stolen", path)
            self.fails(errno.ENOENT, root.hardlink_to, path, "a/b/f")
            self.fails(errno.ENOENT, root.symlink_to, path, "a")
            self.assertFalse(root.exists(path))
        for path in ("up/x", "abs/secret/x"):
            self.fails(errno.ENOENT, root.mkdir, path, parents=True)

    def test_what_would_be_outside_is_made_inside(self):
        self.root.mkdir("../outside", parents=True)
        os.symlink("../../outside/secret", self.at("box/a/key"))
        self.root.write_text("a/key", "inside")
        self.assertEqual(pathlib.Path(self.at("box/outside/secret")).read_text(), "inside")
        self.root.rmtree("/../outside")
        self.root.unlink("up")

    def test_a_removal_follows_no_link(self):
        os.symlink("../../../../outside", self.at("box/a/b/out"))
        self.fails(errno.ENOTDIR, self.root.rmtree, "up")
        for path in ("in", "in/", "a/b/f"):
            self.assertEqual(self.fails(errno.ENOTDIR, self.root.rmtree, path).filename, path)
        self.fails(errno.EINVAL, self.root.rmtree, "/")
        self.root.rmtree("a")
        self.assertFalse(os.path.lexists(self.at("box/a")))

    def test_flags(self):
        for flag, number in ((inroot.Flags.BENEATH, errno.EXDEV), (inroot.Flags.NO_LINKS, errno.ELOOP)):
            with inroot.Root(self.at("box"), flag) as root:
                self.fails(number, root.stat, "in/f")
                self.fails(number, root.mkdir, "in/x")
        for flag in (inroot.Flags.EXACT, inroot.Flags.NO_RETRY | inroot.Flags.NO_XDEV):
            with inroot.Root(self.at("box"), flag) as root:
                self.assertEqual(root.read_text("in/f"), "inside")
        with inroot.Root("/", inroot.Flags.NO_XDEV) as root:
            self.fails(errno.EXDEV, root.stat, "proc/version")
        for flags in (4, 16, 256, 1 << 20, -1):
            with self.assertRaises(ValueError):
                inroot.Root(self.at("box"), flags)

    def test_renames(self):
        self.fails(errno.EEXIST, self.root.rename, "a", "in", inroot.Rename.NOREPLACE)
        self.root.rename("in", "up", inroot.Rename.EXCHANGE)
        self.assertEqual((self.root.readlink("in"), self.root.readlink("up")), ("../outside", "/a/../../a/b"))
        self.fails(errno.EINVAL, self.root.rename, "a", "b", 8)

    def test_names_of_any_bytes(self):
        names = [b"\xff\xfe", b"a\nb", b" ", "ü".encode(), b"-rf", b"x" * 255]
        self.root.mkdir("names")
        for name in names:
            self.root.write_bytes(b"names/" + name, name)
            self.assertEqual(self.root.read_bytes("names/" + os.fsdecode(name)), name)
            self.root.symlink_to(b"names/link", name)
            self.assertEqual(self.root.readlink(b"names/link"), name)
            self.assertEqual(self.root.readlink("names/link"), os.fsdecode(name))
            self.root.unlink("names/link")
        found = list(self.root.iterdir(b"names"))
        self.assertEqual(sorted(os.fsencode(path) for path in found), sorted(b"names/" + name for name in names))
        for path in found:
            self.assertEqual(self.root.read_bytes(path), os.fsencode(path.name))
        self.assertEqual([path.name for path in self.root.iterdir("in")], ["f"])
        self.fails(errno.ENAMETOOLONG, self.root.mkdir, "x" * 256)
        self.fails(errno.ENAMETOOLONG, self.root.stat, "x/" * 2048)
        self.fails(errno.ENOENT, self.root.stat, "")

    def test_a_null_byte_is_refused(self):
        root = self.root
        for path in ("a\0b", "\0", b"a/b/f\0"):
            for call in (root.open, root.read_text, root.stat, root.lstat, root.exists, root.unlink, root.rmdir,
                         root.rmtree, root.mkdir, root.readlink, root.iterdir):
                with self.assertRaises(ValueError):
                    call(path)
            for given in ((root.chmod, path, 0), (root.write_text, path, ""), (root.rename, path, "x"),
                          (root.rename, "a", path), (root.symlink_to, path, "x"), (root.symlink_to, "x", path),
                          (root.hardlink_to, path, "a/b/f"), (root.hardlink_to, "x", path),
                          (root.open_descriptor, path, os.O_RDONLY)):
                with self.assertRaises(ValueError):
                    given[0](*given[1:])
        for path in (None, 3, 1.5, ["a"]):
            with self.assertRaises(TypeError):
                root.stat(path)

    def test_what_is_refused_changes_nothing(self):
        before = below(self.at("box"))
        for call in (lambda: self.root.rename("a/b/f", "up", 1 << 32), lambda: self.root.mknod("x", 0o600, 1 << 64),
                     lambda: self.root.mknod("x", 1 << 32), lambda: inroot.reopen(0, 1 << 32),
                     lambda: self.root.open_descriptor("x", os.O_CREAT | 1 << 32),
                     lambda: inroot.proc_open(1 << 32, "comm", os.O_RDONLY)):
            self.assertRaises(OverflowError, call)
        for call in (self.root.write_bytes, self.root.write_text):
            for data in ("text" if call == self.root.write_bytes else b"bytes", None, 3):
                self.assertRaises(TypeError, call, "a/b/f", data)
        self.assertEqual(below(self.at("box")), before)

    def test_a_signal_interrupts_no_look(self):
        os.mkfifo(self.at("box/fifo"))
        writers = []

        def rings(*_):
            rung.append(len(rung))
            if len(rung) == 3:
                writers.append(os.open(self.at("box/fifo"), os.O_RDWR))

        self.addCleanup(signal.signal, signal.SIGALRM, signal.signal(signal.SIGALRM, rings))
        self.addCleanup(signal.setitimer, signal.ITIMER_REAL, 0)
        handle = self.root.open_descriptor("fifo", os.O_PATH)
        self.addCleanup(os.close, handle)
        for opens, what in ((self.root.open_descriptor, "fifo"), (inroot.reopen, handle)):
            rung = []
            signal.setitimer(signal.ITIMER_REAL, 0.02, 0.02)
            os.close(opens(what, os.O_RDONLY))
            signal.setitimer(signal.ITIMER_REAL, 0)
            self.assertGreaterEqual(len(rung), 3)
            os.close(writers.pop())

    def test_files_of_proc(self):
        with open(inroot.proc_open(inroot.Proc.SELF, "comm", os.O_RDONLY)) as file, open("/proc/self/comm") as same:
            self.assertEqual(file.read(), same.read())
        whole = inroot.proc_open(inroot.Proc.ROOT, ".", os.O_PATH | os.O_DIRECTORY)
        self.addCleanup(os.close, whole)
        self.assertEqual(os.fstat(whole)[:3], os.stat("/proc")[:3])
        self.assertEqual(inroot.proc_readlink(inroot.Proc.ROOT, "self"), str(os.getpid()))
        self.assertEqual(inroot.proc_readlink(os.getpid(), b"exe"), os.fsencode(os.readlink("/proc/self/exe")))
        error = self.fails(errno.EXDEV, inroot.proc_open, inroot.Proc.THREAD_SELF, "/comm", os.O_RDONLY)
        self.assertEqual(error.filename, "/comm")
        self.fails(errno.EINVAL, inroot.proc_readlink, inroot.Proc.SELF, "comm")
        self.fails(errno.EINVAL, inroot.proc_open, 0, "comm", os.O_RDONLY)

    def test_errors_name_their_paths(self):
        error = self.fails(errno.ENOENT, self.root.stat, "in/none")
        self.assertIsInstance(error, FileNotFoundError)
        why = f'can\'t look up "none": {os.strerror(errno.ENOENT)} (ENOENT)'
        self.assertEqual((error.filename, error.strerror), ("in/none", why))
        self.assertEqual(self.fails(errno.ENOENT, self.root.open, b"none").filename, b"none")
        self.assertEqual(self.fails(errno.EISDIR, self.root.open, "a").filename, "a")
        error = self.fails(errno.ENOENT, self.root.rename, "none", "a")
        self.assertEqual((error.filename, error.filename2), ("none", "a"))

    def test_a_file_has_no_name_of_the_host(self):
        for mode, buffering in (("r", -1), ("rb", -1), ("rb", 0), ("r+", -1), ("r+b", -1)):
            with self.root.open("../../a/b/f", mode, buffering) as file:
                self.assertEqual(file.name, file.fileno())

    def test_descriptors_are_given(self):
        fd = self.root.open_descriptor("in", os.O_PATH | os.O_NOFOLLOW)
        self.addCleanup(os.close, fd)
        self.assertTrue(stat.S_ISLNK(os.fstat(fd).st_mode))
        self.assertFalse(os.get_inheritable(fd))
        made = self.root.open_descriptor("in", os.O_RDWR | os.O_TMPFILE, 0o600)
        self.addCleanup(os.close, made)
        self.assertEqual(os.fstat(made).st_nlink, 0)

    def test_no_race_leads_out(self):
        os.mkdir(self.at("box/swap"))
        pathlib.Path(self.at("box/swap/secret")).write_text("inside")
        os.symlink("../outside", self.at("box/other"))
        ends = threading.Event()

        def swap():
            with inroot.Root(self.at("box")) as attacker:
                while not ends.is_set():
                    attacker.rename("swap", "other", inroot.Rename.EXCHANGE)

        thread = threading.Thread(target=swap)
        thread.start()
        try:
            found = tries = 0
            while found < 200 and tries < 100000:
                tries += 1
                try:
                    self.assertEqual(self.root.read_text("swap/secret"), "inside")
                    found += 1
                except OSError:
                    pass
        finally:
            ends.set()
            thread.join()
        self.assertEqual(found, 200)


class Descriptors(Room):
    def test_none_is_left_open(self):
        pathlib.Path(self.at("f")).write_text("text")
        os.mkdir(self.at("d"))

        def calls():
            with inroot.Root(self.top) as root:
                root.mkdir("d/x/y", parents=True)
                root.chmod("f", 0o600)
                self.assertEqual((root.read_text("f"), root.stat("f").st_size), ("text", 4))
                self.assertEqual(len(list(root.iterdir("d"))), 1)
                root.rmtree("d/x")
                for call in (lambda: root.open("d"), lambda: root.open("f", "x"), lambda: root.iterdir("f"),
                             lambda: root.stat("none"), lambda: root.mkdir("f/x/y", parents=True),
                             lambda: root.rmtree("f"), lambda: root.read_text("f", "utf-16")):
                    self.assertRaises((OSError, UnicodeError), call)
            inroot.Root(self.top)

        calls()
        before = len(os.listdir("/proc/self/fd"))
        for _ in range(20):
            calls()
        self.assertEqual(len(os.listdir("/proc/self/fd")), before)

    def test_a_closed_root_is_refused(self):
        with inroot.Root(self.top) as root:
            pass
        with open(self.at("other"), "w"):   # it has the root's number now
            root.close()
            for call in (root.fileno, root.iterdir, root.__enter__, lambda: root.stat("f"),
                         lambda: root.open("f", "w")):
                self.assertRaises(ValueError, call)

    def test_an_error_keeps_no_closed_root_open(self):
        errors = []
        for call in (inroot.Root.stat, inroot.Root.open, inroot.Root.readlink, inroot.Root.unlink, inroot.Root.rmtree):
            with inroot.Root(self.top) as root:
                fd = root.fileno()
                try:
                    call(root, "none")
                except OSError as error:
                    errors.append(error)    # with its traceback
            self.assertRaises(OSError, os.fstat, fd)
        self.assertEqual([error.errno for error in errors], [errno.ENOENT] * 5)

    def test_a_root_is_closed_beside_calls(self):
        """Meanwhile descriptors of another directory are opened: no call acts there by the number of the root's."""
        for name in ("box", "other"):
            os.makedirs(self.at(name, "d"))
            pathlib.Path(self.at(name, "f")).write_text(name)
        before = below(self.at("other"))
        for _ in range(20):
            root, ends = inroot.Root(self.at("box")), []

            def calls(call):
                try:
                    while True:
                        call()
                except Exception as error:
                    ends.append(error)

            threads = [threading.Thread(target=calls, args=(call,)) for call in (
                lambda: self.assertEqual(root.read_text("f"), "box"), lambda: root.write_text("g", "box"),
                lambda: root.mkdir("d/x/y", parents=True, exist_ok=True), lambda: root.chmod("f", 0o640))]
            for thread in threads:
                thread.start()
            time.sleep(0.005)
            root.close()
            others = [os.open(self.at("other"), os.O_PATH) for _ in range(20)]
            for thread in threads:
                thread.join()
            for fd in others:
                os.close(fd)
            self.assertEqual([type(end) for end in ends], [ValueError] * 4, ends)
        self.assertEqual(below(self.at("other")), before)

    def test_no_two_roots_have_one_descriptor(self):
        with inroot.Root(self.top) as root:
            for call in (copy.copy, copy.deepcopy, pickle.dumps):
                self.assertRaises(TypeError, call, root)
            with inroot.Root(root.fileno()) as second:
                second.write_text("f", "text")
            self.assertEqual(root.read_text("f"), "text")

    def test_a_forked_process_has_the_root(self):
        with inroot.Root(self.top) as root:
            root.write_text("f", "parent")      # which opens /proc
            child = multiprocessing.get_context("fork").Process(target=root.write_text, args=("f", "child"))
            child.start()
            child.join()
            self.assertEqual((child.exitcode, root.read_text("f")), (0, "child"))

    def test_a_descriptor_is_a_root(self):
        os.mkdir(self.at("d"))
        fd = os.open(self.at("d"), os.O_PATH)
        with inroot.Root(fd) as root:
            os.close(fd)
            root.write_text("../f", "inside")
            self.assertNotEqual(root.fileno(), fd)
        self.assertEqual(os.listdir(self.at("d")), ["f"])
        with inroot.Root(os.fsencode(self.at("d"))) as root, self.assertRaises(NotADirectoryError):
            inroot.Root(pathlib.Path(self.at("d/f")))

    def test_the_version_is_told(self):
        self.assertRegex(inroot.version(), r"^[0-9]+\.[0-9]+\.[0-9]+$")


if __name__ == "__main__":
    unittest.main()
