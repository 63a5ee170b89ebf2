"""Tests of strace-to-script: what it makes of single calls, what it can't say, and hostile traces."""

import contextlib
import importlib.machinery
import importlib.util
import io
import json
import os
import sys
import tempfile
import unittest

sys.dont_write_bytecode = True
HERE = os.path.dirname(os.path.abspath(__file__))
sys.path.insert(0, HERE)
LOADER = importlib.machinery.SourceFileLoader('strace_to_script', os.path.join(HERE, 'strace-to-script'))
TOOL = importlib.util.module_from_spec(importlib.util.spec_from_loader('strace_to_script', LOADER))
LOADER.exec_module(TOOL)
ROWS = [['dir', '/c'], ['dir', '/c/a'], ['dir', '/c/a/b'], ['file', '/c/a/b/f'], ['link', '/c/l', 'a/b'],
        ['link', '/c/top', '/host'],
        ['dir', '/host'], ['file', '/host/f']]
OPEN = '9 openat(AT_FDCWD, "/r", O_RDONLY|O_PATH|O_CLOEXEC) = 3'
ATTACKER = {'root': '/c', 'calls': [{'op': 'create_dir', 'path': 'new'}]}


def run(words):
    """The tool's status and what it writes to its two streams."""
    out, said = io.TextIOWrapper(io.BytesIO()), io.StringIO()
    with contextlib.redirect_stdout(out), contextlib.redirect_stderr(said):
        try:
            status = TOOL.main(words)
        except SystemExit as end:
            status = end.code
    return status, out.buffer.getvalue(), said.getvalue()


class Made:
    """What the tool makes of a trace: its status, the script, the first actor's calls, and what it says."""

    def __init__(self, *trace, path='a', options=(), rows=ROWS, attacker=None):
        with tempfile.TemporaryDirectory() as room:
            self.files = {'trace': b''.join((line if isinstance(line, bytes) else line.encode()) + b'\n'
                                            for line in trace),
                          'tree': json.dumps(rows).encode(), 'attacker': json.dumps(attacker or ATTACKER).encode()}
            for name, data in self.files.items():
                with open(os.path.join(room, name), 'wb') as file:
                    file.write(data)
            words = ['--rootfs', '/r', '--below', '/c', '--path', path, '--tree', os.path.join(room, 'tree'),
                     '--attacker', os.path.join(room, 'attacker'), *options, os.path.join(room, 'trace')]
            self.status, self.out, self.said = run([word.replace('ROOM', room) for word in words])
        self.script = json.loads(self.out) if self.out.startswith(b'{') else None
        self.calls = self.script['actors'][0]['calls'] if self.script else []


class CallsOfPaths(unittest.TestCase):
    def test_looks(self):
        made = Made('9 newfstatat(AT_FDCWD, "/r/a", {st_mode=S_IFDIR|0755, ...}, AT_SYMLINK_NOFOLLOW) = 0',
                    '9 stat("/r/a/none", 0x7ffd) = -1 ENOENT (No such file or directory)',
                    '9 readlink("/r/a/b", 0x7ffd, 99) = -1 EINVAL (Invalid argument)')
        self.assertEqual(made.calls,
                         [{'op': 'resolve_nofollow', 'path': 'c/a', 'as': 'h1'}, {'op': 'release', 'on': 'h1'},
                                      {'op': 'resolve', 'path': 'c/a/none'}, {'op': 'read_link', 'path': 'c/a/b'}])
        self.assertEqual((made.status, made.script['actors'][0]['root'], made.script['version']), (0, '/', 1))
        self.assertEqual(made.script['actors'][1], ATTACKER)
        self.assertEqual(made.script['tree'], ROWS)

    def test_changes(self):
        made = Made('9 mkdir("/r/a/n", 0755) = 0', '9 mknod("/r/a/m", S_IFREG|0644) = 0',
                    '9 symlink("to", "/r/a/s") = 0',
                    '9 rename("/r/a/n", "/r/a/o") = 0',
                    '9 renameat2(AT_FDCWD, "/r/a/m", AT_FDCWD, "/r/a/o", RENAME_EXCHANGE) = 0',
                    '9 unlink("/r/a/o") = 0', '9 rmdir("/r/a/m") = 0',
                    '9 unlinkat(AT_FDCWD, "/r/a/s", AT_REMOVEDIR) = -1 ENOTDIR (Not a directory)')
        self.assertEqual(made.calls, [
            {'op': 'create_dir', 'path': 'c/a/n'}, {'op': 'create_file', 'path': 'c/a/m'},
            {'op': 'create_link', 'path': 'c/a/s', 'text': 'to'},
                                      {'op': 'rename', 'from': 'c/a/n', 'to': 'c/a/o', 'mode': 'plain'},
            {'op': 'rename', 'from': 'c/a/m', 'to': 'c/a/o', 'mode': 'exchange'},
                                      {'op': 'remove_file', 'path': 'c/a/o'},
            {'op': 'remove_dir', 'path': 'c/a/m'}, {'op': 'remove_dir', 'path': 'c/a/s'}])
        self.assertEqual(made.status, 0)

    def test_a_file_that_is_made_and_opened(self):
        made = Made('9 openat(AT_FDCWD, "/r/a/n", O_WRONLY|O_CREAT|O_TRUNC, 0666) = 4', '9 close(4) = 0')
        self.assertEqual(made.calls,
                         [{'op': 'create_file', 'path': 'c/a/n'}, {'op': 'resolve', 'path': 'c/a/n', 'as': 'h1'},
                                      {'op': 'release', 'on': 'h1'}])
        self.assertIn('otherwise: line 1, openat: two calls stand for one', made.said)
        self.assertEqual(made.status, 1)

    def test_a_directory_alone(self):
        made = Made('9 openat(AT_FDCWD, "/r/a/b/f", O_RDONLY|O_DIRECTORY) = -1 ENOTDIR (Not a directory)')
        self.assertEqual(made.calls, [{'op': 'resolve', 'path': 'c/a/b/f/'}])

    def test_own_directory(self):
        made = Made('9 getcwd("/r/a", 4096) = 5', '9 mkdir("x", 0755) = 0', '9 chdir("b") = 0',
                    '9 mkdir("y", 0755) = 0')
        self.assertEqual(made.calls,
                         [{'op': 'create_dir', 'path': 'c/a/x'}, {'op': 'resolve', 'path': 'c/a/b', 'as': 'h1'},
                                      {'op': 'step', 'step': 'make_dir', 'on': 'h1', 'name': 'y'}])
        made = Made('9 mkdir("a/x", 0755) = 0', options=['--cwd', '/r'])
        self.assertEqual(made.calls, [{'op': 'create_dir', 'path': 'c/a/x'}])

    def test_links_are_followed_by_the_tree(self):
        made = Made('9 stat("/r/l/f", {}) = 0', '9 lstat("/r/l", {}) = 0', '9 stat("/r/top/f", {}) = 0')
        self.assertEqual([call['path'] for call in made.calls if 'path' in call], ['c/l/f'])

    def test_other_roots(self):
        made = Made('9 pivot_root(".", ".") = 0', '9 mkdir("/a/x", 0755) = 0',
                    '9 mkdir("/r/a", 0755) = -1 EEXIST (File exists)')
        self.assertEqual(made.status, 4)
        self.assertIn('not known: line 2 and 1 more, a call: its path begins at another root, after pivot_root',
                      made.said)

    def test_the_rootfs_as_root(self):
        for lines in (['9 chroot("/r") = 0'], ['9 chroot("/r/a/..") = 0'],
                      ['9 chdir("/r/.") = 0', '9 pivot_root(".", ".") = 0'],
                      ['9 chdir("/r") = 0', '9 chroot(".") = 0'],
                      ['9 open("/r", O_PATH) = 7', '9 fchdir(7) = 0', '9 chroot("./") = 0']):
            made = Made(*lines, '9 mkdir("/a/x", 0755) = 0', '9 clone(flags=SIGCHLD) = 8', '8 chroot("/") = 0',
                        '8 openat(AT_FDCWD, "/a", O_PATH) = 5', '8 mkdirat(5, "n", 0755) = 0', '8 stat("/l/f", {}) = 0',
                        '8 chdir("/a") = 0', '8 openat(AT_FDCWD, "b", O_RDONLY) = 6')
            self.assertEqual(made.script['actors'][0]['root'], '/c')
            self.assertEqual([call.get('path', call.get('name')) for call in made.calls if call['op'] != 'release'],
                             ['a/x', 'a', 'n', 'l/f', 'a', 'a/b'])
        made = Made('9 chroot("/r/a") = 0', '9 mkdir("/b/x", 0755) = 0', '9 chroot("/b") = 0',
                    '9 mkdir("/a", 0755) = 0')
        self.assertEqual(made.status, 4)
        self.assertIn('not known: line 2 and 2 more, a call: its path begins at another root, after chroot', made.said)

    def test_other_mounts(self):
        made = Made('9 setns(3, CLONE_NEWPID) = 0', '9 mkdir("/r/a/x", 0755) = 0', '9 setns(3, CLONE_NEWNS) = 0',
                    '9 mkdir("/r/a/y", 0755) = 0')
        self.assertEqual([call['path'] for call in made.calls], ['c/a/x'])
        self.assertIn('not known: line 4, a call: its path begins at another root, after setns', made.said)


class CallsOfDescriptors(unittest.TestCase):
    def test_steps(self):
        made = Made('9 openat(AT_FDCWD, "/r/a", O_RDONLY|O_PATH) = 5', '9 mkdirat(5, "n", 0755) = 0',
                    '9 mknodat(5, "m", S_IFREG) = 0',
                    '9 symlinkat("t", 5, "s") = 0', '9 renameat(5, "n", 5, "o") = 0', '9 unlinkat(5, "m", 0) = 0',
                    '9 unlinkat(5, "o", AT_REMOVEDIR) = 0', '9 readlink("/proc/self/fd/5", "/r/a", 99) = 4',
                    '9 getdents64(5, [], 99) = 24', '9 getdents64(5, [], 99) = 48',
                    '9 getdents64(5, [], 99) = 0', '9 close(5) = 0')
        step = {'op': 'step', 'on': 'h1'}
        self.assertEqual(made.calls, [
            {'op': 'resolve', 'path': 'c/a', 'as': 'h1'}, dict(step, step='make_dir', name='n'),
                                      dict(step, step='make_file', name='m'),
            dict(step, step='make_link', name='s', text='t'),
                                      dict(step, step='rename', name='n', to='h1', new='o', mode='plain'),
            dict(step, step='remove_file', name='m'), dict(step, step='remove_dir', name='o'), dict(step, step='below'),
            dict(step, step='list'), {'op': 'release', 'on': 'h1'}])
        self.assertEqual(made.status, 0)

    def test_the_rootfs_itself(self):
        made = Made(OPEN, '9 mkdirat(3, "a", 0755) = -1 EEXIST (File exists)', '9 mkdirat(3, "a/n", 0755) = 0')
        self.assertEqual(made.calls, [{'op': 'create_dir', 'path': 'c/a'}, {'op': 'create_dir', 'path': 'c/a/n'}])
        made = Made(OPEN, '9 mkdirat(3, "a", 0755) = -1 EEXIST (File exists)', options=['--as', 'root'])
        self.assertEqual(made.calls, [{'op': 'step', 'step': 'make_dir', 'on': 'root', 'name': 'a'}])
        self.assertEqual(made.script['actors'][0]['root'], '/c')

    def test_openat2(self):
        made = Made(OPEN, '9 openat2(3, "/a/b", {flags=O_PATH, resolve=RESOLVE_IN_ROOT|RESOLVE_NO_SYMLINKS}, 24) = 4',
                    '9 mkdirat(4, "n", 0755) = 0', '9 openat2(3, "a", {flags=O_PATH, resolve=RESOLVE_BENEATH}, 24) = 5')
        self.assertEqual(made.calls, [{'op': 'resolve', 'path': '/a/b', 'no_links': True, 'as': 'h1'},
                                      {'op': 'step', 'step': 'make_dir', 'on': 'h1', 'name': 'n'},
                                      {'op': 'resolve', 'path': 'a', 'beneath': True}])
        self.assertEqual((made.script['version'], made.script['actors'][0]['root'], made.status), (2, '/c', 0))

    def test_openat2_makes_a_file(self):
        flags = 'flags=O_WRONLY|O_CREAT, mode=0600, resolve=RESOLVE_BENEATH|RESOLVE_NO_SYMLINKS'
        made = Made(OPEN, '9 openat2(3, "a/n", {%s}, 24) = 4' % flags)
        restricted = {'path': 'a/n', 'no_links': True, 'beneath': True}
        self.assertEqual(made.calls, [dict(restricted, op='create_file'), dict(restricted, op='resolve')])

    def test_openat2_below_another_directory(self):
        made = Made('9 openat(AT_FDCWD, "/r/a", O_PATH) = 4',
                    '9 openat2(4, "b", {flags=O_PATH, resolve=RESOLVE_IN_ROOT}, 24) = 5',
                    '9 mkdirat(5, "n", 0755) = 0')
        self.assertIn('left out: line 2, openat2: it stays below another directory than the rootfs', made.said)
        self.assertIn('left out: line 3, mkdirat: its descriptor was opened by no call of the script', made.said)
        self.assertEqual(made.calls, [{'op': 'resolve', 'path': 'c/a'}])

    def test_both_roots(self):
        trace = (OPEN, '9 openat2(3, "a", {flags=O_PATH, resolve=RESOLVE_IN_ROOT}, 24) = 4',
                 '9 mkdir("/r/a/n", 0755) = 0',
                 '9 mkdirat(4, "m", 0755) = 0')
        made = Made(*trace)
        self.assertEqual(made.script['actors'][0]['root'], '/c')
        self.assertIn('left out: line 3, mkdir: it is looked up from the top', made.said)
        made = Made(*trace, options=['--as', 'host'])
        self.assertEqual(made.calls, [{'op': 'create_dir', 'path': 'c/a/n'}])
        self.assertIn('left out: line 2, openat2: it is looked up below the rootfs', made.said)
        self.assertIn('left out: line 4, mkdirat: its descriptor was opened by no call', made.said)

    def test_walked_again(self):
        made = Made('9 openat(AT_FDCWD, "/r/a", O_PATH) = 5', '9 openat(5, "b", O_PATH|O_NOFOLLOW) = 6',
                    '9 mkdirat(6, "n", 0755) = 0')
        self.assertEqual(made.calls,
                         [{'op': 'resolve', 'path': 'c/a'}, {'op': 'resolve_nofollow', 'path': 'c/a/b', 'as': 'h1'},
                                      {'op': 'step', 'step': 'make_dir', 'on': 'h1', 'name': 'n'}])
        self.assertIn('otherwise: line 2, openat: a path from the root stands for one from a descriptor', made.said)

    def test_opened_again_by_proc(self):
        for proc in ('/proc/self/fd/5', '/proc/thread-self/fd/5', '/dev/fd/5', '/proc/9/fd/5'):
            made = Made('9 openat(AT_FDCWD, "/r/a", O_PATH) = 5', '9 openat(AT_FDCWD, "%s", O_RDONLY) = 6' % proc,
                        '9 close(5) = 0',
                        '9 mkdirat(6, "n", 0755) = 0', '9 mkdir("/proc/self/fd/6/m", 0755) = 0', '9 close(6) = 0')
            self.assertEqual([call.get('step') or call['op'] for call in made.calls],
                             ['resolve', 'make_dir', 'make_dir', 'release'])
            self.assertEqual(made.status, 0)
        made = Made('9 openat(AT_FDCWD, "/r/a", O_PATH) = 5', '9 mkdir("/proc/8/fd/5/m", 0755) = 0')
        self.assertEqual(len(made.calls), 1)

    def test_copies(self):
        made = Made('9 openat(AT_FDCWD, "/r/a", O_PATH) = 5', '9 dup(5) = 6', '9 fcntl(6, F_DUPFD_CLOEXEC, 0) = 7',
                    '9 dup3(7, 8, O_CLOEXEC) = 8',
                    '9 close_range(5, 7, 0) = 0', '9 mkdirat(8, "n", 0755) = 0', '9 close(8) = 0',
                    '9 mkdirat(8, "o", 0755) = -1 EBADF (Bad file)')
        self.assertEqual([call.get('step') or call['op'] for call in made.calls], ['resolve', 'make_dir', 'release'])
        self.assertIn('not known: line 8, a call: its path begins at a directory that the trace does not show',
                      made.said)

    def test_a_copy_onto_itself(self):
        made = Made('9 openat(AT_FDCWD, "/r/a", O_PATH) = 5', '9 dup2(5, 5) = 5', '9 mkdirat(5, "n", 0755) = 0',
                    '9 dup2(0, 5) = 5', '9 mkdirat(5, "m", 0755) = -1 ENOTDIR (Not a directory)')
        self.assertEqual([call.get('name') or call['op'] for call in made.calls], ['resolve', 'n', 'release'])

    def test_looks_at_a_descriptor(self):
        made = Made('9 openat(AT_FDCWD, "/r/a", O_PATH) = 5', '9 fstat(5, {}) = 0',
                    '9 newfstatat(5, "", {}, AT_EMPTY_PATH) = 0',
                    '9 statx(5, "b", AT_SYMLINK_NOFOLLOW|AT_STATX_DONT_SYNC, STATX_TYPE, {}) = 0',
                    '9 faccessat2(5, "b", R_OK, AT_SYMLINK_NOFOLLOW) = 0', '9 fstatat64(5, "b", {}, 0) = 0')
        self.assertEqual([call['op'] for call in made.calls if call['op'] != 'release'],
                         ['resolve', 'resolve_nofollow', 'resolve_nofollow', 'resolve'])

    def test_descriptors_that_y_shows(self):
        made = Made('9 mkdirat(7</r/a>, "n", 0755) = 0', '9 openat(AT_FDCWD</r>, "a", O_PATH) = 4</r/a>',
                    '9 mkdirat(4</r/a>, "m", 0755) = 0')
        self.assertEqual([call.get('step') or call['op'] for call in made.calls], ['create_dir', 'resolve', 'make_dir'])
        self.assertIn('otherwise: line 1, mkdirat: a path from the root stands for one from a descriptor', made.said)

    def test_what_the_program_moved(self):
        made = Made('9 open("/r/a/b", O_PATH) = 5', '9 rename("/r/a/b", "/r/a/n") = 0',
                    '9 fstatat64(5, "f", {}, 0) = 0',
                    '9 stat("/r/a/n/f", {}) = 0', '9 mkdir("/r/a/b", 0755) = 0',
                    '9 renameat2(AT_FDCWD, "/r/a/b", AT_FDCWD, "/r/a/n", RENAME_EXCHANGE) = 0',
                    '9 fstatat64(5, "f", {}, 0) = 0', '9 stat("/r/a/n/f", 0x1) = -1 ENOENT (No such file or directory)')
        self.assertEqual([call['path'] for call in made.calls if call['op'] == 'resolve'],
                         ['c/a/b', 'c/a/n/f', 'c/a/n/f', 'c/a/b/f', 'c/a/n/f'])
        self.assertNotIn('the tree says otherwise', made.said)

    def test_slashes_at_the_end(self):
        made = Made('9 mkdir("/r/a/x/", 0755) = 0', '9 stat("/r/a//b/.", {}) = 0')
        self.assertEqual([call['path'] for call in made.calls if 'path' in call], ['c/a/x/', 'c/a/b/'])


class ProcessesOfATrace(unittest.TestCase):
    def test_a_child_has_copies(self):
        made = Made('9 openat(AT_FDCWD, "/r/a", O_PATH) = 5',
                    '9 clone(child_stack=NULL, flags=SIGCHLD <unfinished ...>', '8 close(5) = 0',
                    '9 <... clone resumed>) = 8', '8 mkdirat(5, "n", 0755) = -1 EBADF (Bad)',
                    '9 mkdirat(5, "m", 0755) = 0')
        self.assertEqual([call.get('name') for call in made.calls], [None, 'm'])

    def test_threads_share(self):
        made = Made('9 openat(AT_FDCWD, "/r/a", O_PATH) = 5',
                    '9 clone3({flags=CLONE_VM|CLONE_FS|CLONE_FILES, exit_signal=0}, 88) = 8',
                    '8 openat(AT_FDCWD, "/r/a/b", O_PATH) = 6', '9 mkdirat(6, "n", 0755) = 0',
                    '8 +++ exited with 0 +++',
                    '9 mkdirat(6, "m", 0755) = 0', '9 +++ killed by SIGKILL +++')
        self.assertEqual([call.get('name') or call['op'] for call in made.calls],
                         ['resolve', 'resolve', 'n', 'm', 'release', 'release'])

    def test_own_directories_of_processes(self):
        for flags in ('SIGCHLD', 'CLONE_FS'):
            made = Made('9 chdir("/r/a") = 0', '9 clone(flags=%s) = 8' % flags, '8 chdir("/r/a/b") = 0',
                        '9 mkdir("n", 0755) = 0', '8 mkdir("m", 0755) = 0')
            self.assertEqual([call['name'] for call in made.calls if call['op'] == 'step'], ['n', 'm'])
            opened = {call.get('as'): call['path'] for call in made.calls if call['op'] == 'resolve'}
            stands = [opened[call['on']] for call in made.calls if call['op'] == 'step']
            self.assertEqual(stands, ['c/a', 'c/a/b'] if flags == 'SIGCHLD' else ['c/a/b', 'c/a/b'])
        made = Made('9 chdir("/r/a") = 0', '9 clone(flags=CLONE_FS) = 8', '8 unshare(CLONE_FS) = 0',
                    '8 chdir("/r/a/b") = 0', '9 mkdir("n", 0755) = 0')
        self.assertEqual([call.get('path') for call in made.calls if call['op'] == 'resolve'], ['c/a', 'c/a/b'])
        self.assertEqual([call['on'] for call in made.calls if call['op'] == 'step'], ['h1'])

    def test_a_program_that_is_begun(self):
        made = Made('9 openat(AT_FDCWD, "/r/a", O_PATH|O_CLOEXEC) = 5', '9 openat(AT_FDCWD, "/r/a/b", O_PATH) = 6',
                    '9 execve("/bin/true", ["/r/a"], 0x7ff /* 2 vars */) = 0', '9 mkdirat(6, "m", 0755) = 0')
        self.assertEqual([call.get('step') or call['op'] for call in made.calls],
                         ['resolve', 'resolve', 'release', 'make_dir'])

    def test_a_close_gives_its_number_away_at_once(self):
        made = Made('9 openat(AT_FDCWD, "/r/a", O_PATH) = 5', '9 clone3({flags=CLONE_VM|CLONE_FS|CLONE_FILES}, 88) = 8',
                    '9 close(5 <unfinished ...>', '8 openat(AT_FDCWD, "/r/a/b", O_PATH) = 5',
                    '9 <... close resumed>) = 0',
                    '8 mkdirat(5, "n", 0755) = 0')
        self.assertEqual([call.get('on', call.get('path')) for call in made.calls], ['c/a', 'h1', 'c/a/b', 'h2'])

    def test_a_close_that_is_interrupted(self):
        for number in ('5', '5</r/a>'):
            made = Made('9 openat(AT_FDCWD, "/r/a", O_PATH) = 5', '9 close(%s <unfinished ...>' % number,
                        '9 <... close resumed>) = 0')
            self.assertEqual([call['op'] for call in made.calls], ['resolve', 'release'])

    def test_execve_of_a_thread(self):
        made = Made('9 openat(AT_FDCWD, "/r/a", O_PATH) = 5', '9 clone3({flags=CLONE_VM|CLONE_FS|CLONE_FILES}, 88) = 8',
                    '8 execve("/bin/x", [], 0x1 /* 0 vars */ <unfinished ...>',
                    '9 +++ superseded by execve in pid 8 +++',
                    '9 <... execve resumed>) = 0', '9 mkdirat(5, "n", 0755) = 0')
        self.assertEqual([call.get('name') for call in made.calls], [None, 'n'])
        self.assertEqual(made.status, 0)


class WhatIsLeftOut(unittest.TestCase):
    def left(self, line, why):
        made = Made('9 openat(AT_FDCWD, "/r/a", O_PATH) = 5', line)
        self.assertIn('left out: line 2, %s: %s' % (line[2:].split('(')[0], why), made.said)
        self.assertEqual((made.status, made.calls), (1, [{'op': 'resolve', 'path': 'c/a'}]))

    def test_calls_without_a_meaning(self):
        self.left('9 mount("/x", "/proc/self/fd/5", NULL, MS_BIND, NULL) = 0', 'the model has no mounts')
        self.left('9 mount("/x", "/r/a/b", NULL, MS_BIND, NULL) = 0', 'the model has no mounts')
        self.left('9 chmod("/r/a", 0700) = 0', 'the model has no modes')
        self.left('9 fchown(5, 0, 0) = 0', 'the model has no owners')
        self.left('9 utimensat(5, "b", NULL, 0) = 0', 'the model has no times')
        self.left('9 lsetxattr("/r/a", "user.a", "b", 1, 0) = 0', 'the model has no attributes')
        self.left('9 linkat(AT_FDCWD, "/x", 5, "n", 0) = 0', 'the model has no second names of a file')
        self.left('9 truncate("/r/a/b/f", 0) = 0', 'the model has no contents')
        self.left('9 execve("/r/a/b/f", ["f"], 0x7f /* 1 var */) = -1 EACCES (Permission denied)',
                  'the model has no programs')
        self.left('9 swapon("/r/a/b/f", 0) = 0', 'this tool does not know the call')
        self.left('9 rename("/x", "/r/a/b/f") = 0', 'one of its paths is outside of the rootfs')
        self.left('9 renameat2(5, "b", 5, "n", RENAME_WHITEOUT) = 0', 'the script has no such rename')
        self.left('9 openat(5, "b", O_RDWR|O_TMPFILE, 0600) = 6', 'the model has no files without a name')

    def test_other_paths_are_no_matter(self):
        made = Made('9 chmod("/r/l", 0700) = 0', '9 mkdir("/r/other", 0700) = 0', '9 mkdir("/x/r/a/n", 0700) = 0',
                    '9 stat("/r/a", {}) = 0',
                    '9 chown("/r/top", 0, 0) = 0', '9 read(0, "/r/a", 5) = 4',
                    '9 mount("proc", "/proc", "proc", 0, NULL) = 0',
                    path='a/b', options=['--cwd', '/'])
        self.assertEqual((made.status, made.calls), (4, []))
        self.assertIn('left out: line 1, chmod: the model has no modes', made.said)

    def test_errors_that_no_call_has(self):
        made = Made('9 openat(AT_FDCWD, "/r/a", O_RDONLY) = -1 EACCES (Permission denied)')
        self.assertIn('otherwise: line 1, openat: it ended in EACCES, which no call of a script does', made.said)

    def test_a_tree_that_is_not_the_traces(self):
        made = Made('9 stat("/r/a/x", {}) = 0', '9 stat("/r/a/b", 0x7) = -1 ENOENT (No such file or directory)')
        self.assertIn('otherwise: line 1 and 1 more, stat: the tree says otherwise than the trace', made.said)

    def test_report(self):
        with tempfile.TemporaryDirectory() as room:
            Made('9 mkdir("/r/a/n", 0755) = 0', '9 mkdir("/r/a/b", 0755) = -1 EEXIST (File exists)',
                 options=['--report', room + '/report'])
            with open(room + '/report', encoding='utf-8') as file:
                self.assertEqual(file.read().splitlines()[1:], ['call 0: line 1, mkdir: reply 0 0 done',
                                                                'call 1: line 2, mkdir: reply 0 1 fault EEXIST'])

    def test_report_of_a_place(self):
        with tempfile.TemporaryDirectory() as room:
            Made('9 mkdir("/r/a/!~\\\\ ", 0755) = 0', '9 open("/r/a/!~\\\\ ", O_PATH) = 5',
                 '9 readlink("/proc/self/fd/5", "/r/a/!~\\\\ ", 99) = 9', options=['--report', room + '/report'])
            with open(room + '/report', encoding='utf-8') as file:
                self.assertIn('call 2: line 3, readlink: reply 0 2 stepped names /c/a/!~\\x5c\\x20\n', file.read())

    def test_lines_and_cut(self):
        trace = ('9 mkdir("/r/a/n", 0755) = 0', '9 openat(AT_FDCWD, "/r/a", O_PATH) = 5', '9 stat("/x", {}) = 0',
                 '9 mkdirat(5, "m", 0755) = 0',
                 '9 close(5) = 0', '9 mkdir("/r/a/o", 0755) = 0')
        made = Made(*trace, options=['--lines', '3-5'])
        self.assertEqual([call.get('name', call['op']) for call in made.calls], ['resolve', 'm', 'release'])
        cut = Made(*trace, options=['--lines', '3-5', '--cut'])
        self.assertEqual(cut.out.decode().splitlines(), [trace[1], trace[3], trace[4]])
        self.assertEqual(Made(*cut.out.splitlines()).out, made.out)

    def test_a_cut_has_what_the_script_rests_on(self):
        # Lines that neither open nor use a descriptor, but say who has it, and what is left out.
        trace = ('9 chdir("/r/a") = 0', '9 clone(flags=SIGCHLD <unfinished ...>', '9 <... clone resumed>) = 8',
                 '8 open("b", O_PATH) = 5', '8 dup(5) = 6', '8 fcntl(5, F_SETFD, FD_CLOEXEC) = 0', '8 close(6) = 0',
                 '8 mkdirat(5, "n", 0755) = 0', '8 fchmod(5, 0700) = 0', '8 execve("/x", [], 0x1 /* 0 vars */) = 0')
        for extra in ('9 stat("/r/other", {}) = 0', '7 stat("/r/a/..", {}) = 0', '8 write(1, "/r/a", 4) = 4'):
            made, cut = Made(extra, *trace, path='a/b'), Made(extra, *trace, path='a/b', options=['--cut'])
            self.assertEqual(cut.out.decode().splitlines(), list(trace))
            self.assertEqual(Made(*trace, path='a/b').out, made.out)
            self.assertEqual([call.get('name') or call['op'] for call in made.calls],
                             ['resolve', 'n', 'release'])


class HostileTraces(unittest.TestCase):
    GOOD = '9 mkdir("/r/a/n", 0755) = 0'

    def bad(self, why, *lines, number=1):
        made = Made(*lines, self.GOOD)
        self.assertIn('no call: line %d: %s' % (number, why), made.said)
        self.assertEqual((made.status, made.calls), (1, [{'op': 'create_dir', 'path': 'c/a/n'}]))

    def test_lines_that_are_none(self):
        for line in ('9 mkdir("/r/a', '9 mkdir("/r/a/x", 0755', '9 mkdir("/r/a/x", 0755)', '9 mkdir("/r/a/x", 0755) = ',
                     '9 mkdir(', '9', 'nonsense',
                     '9 MKDIR("/r/a/x") = 0', '[pid 9] mkdir("/r/a/x", 0755) = 0', b'9 mkdir("/r/a/\xff', b'\xff\xfe',
                     b'9 mkdir("\x00', '9 (((((',
                     '9 mkdir({[("/r/a/x", 0755) = 0', '9 stat("/r/a", {st_mode=) = 0', '9 +++ exited',
                     '9 mkdir("/r/a/x\\', '9 = 0'):
            self.bad('no call of strace -o', line)

    def test_numbers_that_are_too_large(self):
        self.bad('a number too large', '9 openat(AT_FDCWD, "/r/a", O_PATH) = ' + '9' * 5000)
        self.bad('no call of strace -o', '9' * 5000 + ' mkdir("/r/a/x", 0755) = 0')
        self.bad('other arguments than close has', '9 close(%s) = 0' % ('9' * 5000))
        self.bad('other arguments than close_range has', '9 close_range(%s, 3, 0) = 0' % ('9' * 5000))
        made = Made('9 mkdirat(%s, "x", 0755) = 0' % ('9' * 5000), self.GOOD)
        self.assertIn('not known: line 1, a call: its descriptor is none', made.said)
        made = Made('9 openat(AT_FDCWD, "/r/a", O_PATH) = 999999999999999999',
                    '9 mkdirat(999999999999999999, "x", 0755) = 0')
        self.assertEqual(len(made.calls), 2)

    def test_arguments_that_lack(self):
        for name in ('mkdirat', 'openat', 'openat2', 'renameat2', 'symlink', 'readlinkat', 'unlinkat', 'close', 'dup',
                     'fcntl', 'getdents64'):
            self.bad('other arguments than %s has' % name, '9 %s() = 0' % name)

    def test_calls_that_never_end(self):
        self.bad('a call that never ended', '9 mkdir("/r/a/x", 0755) = ?')
        self.bad('the end of a call whose beginning is not here', '9 <... mkdir resumed>) = 0')
        made = Made(self.GOOD, '8 mkdir("/r/a/x", 0755 <unfinished ...>')
        self.assertIn('no call: line 2: a call that never ended', made.said)
        made = Made(self.GOOD, '8 mkdir("/r/a/x", 0755 <unfinished ...>', '8 +++ killed by SIGKILL +++')
        self.assertEqual(len(made.calls), 1)
        self.bad('a call that begins within another', '8 mkdir("/r/a/x", 0755 <unfinished ...>',
                 '8 mkdir("/r/a/y", 0755 <unfinished ...>', number=2)

    def test_calls_that_are_interrupted(self):
        made = Made('9 mkdir("/r/a/x", 0755 <unfinished ...>', '8 mkdir("/r/a/y", 0755) = 0', '--- not of this process',
                    '9 --- SIGCHLD {si_signo=SIGCHLD} ---',
                    '9 <... mkdir resumed>) = 0', '9 mkdir("/r/a/z", 0755) = ? ERESTARTSYS (To be restarted)',
                    '9 mkdir("/r/a/z", 0755) = 0')
        self.assertEqual([call['path'] for call in made.calls], ['c/a/y', 'c/a/x', 'c/a/z'])
        self.assertEqual(made.status, 0)

    def test_names(self):
        made = Made(r'9 mkdir("/r/a/\303\244\"\\\n\t\x41", 0755) = 0', '9 mkdir("/r/a/ <unfinished ...>", 0755) = 0',
                    '9 mkdir("/r/a/) = 7", 0755) = 0',
                    '9 mkdir("/r/a/,{[(", 0755) = 0', '9 mkdir("/r/a/\u00fc", 0755) = 0')
        self.assertEqual([call['path'] for call in made.calls],
                         ['c/a/\u00e4"\\\n\tA', 'c/a/ <unfinished ...>', 'c/a/) = 7', 'c/a/,{[(', 'c/a/\u00fc'])

    def test_names_that_are_not_utf8(self):
        made = Made(r'9 mkdir("/r/a/\377", 0755) = 0', b'9 mkdir("/r/a/\xff\xfe", 0755) = 0',
                    r'9 symlink("\377", "/r/a/s") = 0', self.GOOD)
        self.assertIn('left out: line 1 and 1 more, mkdir: its path is not UTF-8', made.said)
        self.assertIn('left out: line 3, symlink: its path is not UTF-8', made.said)
        self.assertEqual(made.calls, [{'op': 'create_dir', 'path': 'c/a/n'}])

    def test_paths_that_are_cut_or_too_long(self):
        made = Made('9 mkdir("/r/a/x"..., 0755) = 0', '9 mkdir(0x7ffd0, 0755) = -1 EFAULT (Bad address)',
                    '9 mkdir("/r/%s", 0755) = 0' % ('a/' * 2100), self.GOOD)
        self.assertIn('not known: line 1 and 1 more, a call: strace shows no whole path', made.said)
        self.assertIn('not known: line 3, a call: its path is longer than 4095 bytes', made.said)

    def test_paths_that_climb(self):
        made = Made('9 mkdir("/r/../r/a/x", 0755) = 0', '9 mkdir("/r/a/../../r/a/x", 0755) = 0',
                    '9 mkdir("//r/./a//y", 0755) = 0')
        self.assertEqual([call['path'] for call in made.calls], ['c/a/y'])
        self.assertIn('not known: line 1 and 1 more, a call: its .. leads out of the rootfs by name', made.said)

    def test_a_line_without_end(self):
        made = Made('9 write(1, "%s' % ('a' * (1 << 20)), self.GOOD)
        self.assertIn('no call: line 1: a line of more than 1048576 bytes', made.said)
        self.assertEqual(len(made.calls), 1)

    def test_unknown_flags(self):
        made = Made(OPEN, '9 openat2(3, "a", {flags=O_PATH, resolve=RESOLVE_IN_ROOT|0x40 /* RESOLVE_??? */}, 24) = 4',
                    self.GOOD)
        self.assertIn('not known: line 2, a call: its flags are not known', made.said)

    def test_a_path_that_never_occurs(self):
        made = Made(self.GOOD, path='other/place')
        self.assertEqual((made.status, made.out), (4, b''))
        self.assertIn('strace-to-script: no call of the trace touches other/place below /r', made.said)

    def test_a_process_that_is_used_twice(self):
        made = Made('9 clone(flags=SIGCHLD) = 8', '8 openat(AT_FDCWD, "/r/a", O_PATH) = 5', '8 +++ exited with 0 +++',
                    '9 clone(flags=SIGCHLD) = 8',
                    '8 mkdirat(5, "x", 0755) = -1 EBADF (Bad)')
        self.assertEqual([call['op'] for call in made.calls], ['resolve', 'release'])

    def test_too_many_calls(self):
        made = Made(*['9 mkdir("/r/a/n", 0755) = 0'] * 513)
        self.assertEqual((made.status, made.out), (3, b''))
        self.assertIn('strace-to-script: 513 calls touch the path, and a script takes 512', made.said)
        self.assertEqual(len(Made(*['9 mkdir("/r/a/n", 0755) = 0'] * 512).calls), 512)

    def test_links_in_a_ring(self):
        made = Made('9 stat("/r/a/x", 0x7) = -1 ELOOP (Too many levels)',
                    rows=[['dir', '/c'], ['link', '/c/a', 'b'], ['link', '/c/b', 'a']])
        self.assertEqual(made.calls, [{'op': 'resolve', 'path': 'c/a/x'}])


class WhatIsRefused(unittest.TestCase):
    def refused(self, why, status=3, trace=('9 mkdir("/r/a/n", 0755) = 0',), **given):
        made = Made(*trace, **given)
        self.assertIn(why, made.said)
        self.assertEqual((made.status, made.out), (status, b''))

    def test_traces(self):
        self.refused('it has no line of strace -f -o', trace=())
        self.refused('it has no line of strace -f -o', trace=('nothing', 'of it'))
        self.refused('No such file or directory', options=['--tree', 'ROOM/none'])

    def test_trees(self):
        self.refused('neither a list of entries nor a script', rows={'a': 1})
        self.refused('entry 0 is none', rows=[['pipe', '/c/x']])
        self.refused('entry 0 is none', rows=[['link', '/c/x']])
        self.refused('entry 0 is none', rows=['dir', '/c'])
        self.refused("the tree has no directory above '/c/x/y'", rows=[['dir', '/c/x/y']])
        self.refused("the tree has two entries '/c/a'", rows=ROWS + [['file', '/c/a']])
        self.refused('the tree has 10001 entries, and a script takes 10000',
                     rows=[['dir', '/c/%d' % number] for number in range(10000)])
        self.refused('not JSON', options=['--tree', 'ROOM/trace'])

    def test_attackers(self):
        self.refused('actor 0 is none', attacker=[7])
        self.refused('actor 1 is none', attacker=[ATTACKER, {'root': '/c'}])

    def test_words(self):
        for options in (['--path', ''], ['--path', '../a'], ['--rootfs', 'r'], ['--lines', '7'], ['--as', 'other'],
                        ['--below', 'c'], ['--what']):
            self.refused('strace-to-script: error:', 2, options=options)


class RealTrees(unittest.TestCase):
    def test_cut_to_the_names_of_paths(self):
        with tempfile.TemporaryDirectory() as root:
            for name in ('a/b', 'usr/lib/x', 'usr/share', 'other/deep', 'full'):
                os.makedirs(os.path.join(root, name))
            for name in ('a/b/f', 'a/g', 'usr/lib/x/f', 'full/one', 'full/two'):
                with open(os.path.join(root, name), 'wb'):
                    pass
            os.symlink('usr/lib', os.path.join(root, 'lib'))
            os.symlink('nowhere', os.path.join(root, 'unused'))
            with open(os.path.join(root.encode(), b'\xff'), 'wb'):
                pass
            made = Made('9 stat("/r/lib/x", {}) = 0', path='lib', rows=[['dir', '/host'], ['file', '/host/f']],
                        options=['--tree', root],
                        attacker={'root': '/c', 'calls': [{'op': 'remove_dir', 'path': 'full'}]})
            self.assertEqual(sorted(made.script['tree']), [
                ['dir', '/c'], ['dir', '/c/full'], ['dir', '/c/usr'], ['dir', '/c/usr/lib'], ['dir', '/c/usr/lib/x'],
                                                           ['dir', '/host'],
                ['file', '/c/full/one'], ['file', '/c/usr/lib/x/f'], ['file', '/host/f'],
                                                           ['link', '/c/lib', 'usr/lib']])
            self.assertIn('left out: 1 entries of the tree whose names or texts are not UTF-8', made.said)
            made = Made('9 stat("/r/v/b", {}) = 0', path='v', options=['--tree', '/c/v=' + root + '/a'])
            self.assertIn(['dir', '/c/v/b'], made.script['tree'])
            whole = Made('9 stat("/r/a", {}) = 0', options=['--tree', root], rows=[['dir', '/c']],
                         attacker={'root': '/c', 'calls': [{'op': 'remove_all', 'path': 'a'}]})
            self.assertEqual(len(whole.script['tree']), 17)


if __name__ == '__main__':
    unittest.main()
