"""Real programs under strace. What the kernel answered them, and the tree that they left, is what `inroot replay` comes
to over the script that strace-to-script makes of the trace."""

import json
import os
import random
import re
import shutil
import subprocess
import sys
import tempfile
import unittest

from test_strace_to_script import run

PROGRAM = os.environ.get('INROOT_PROGRAM')
ROUNDS = int(os.environ.get('INROOT_ROUNDS', '6'))
# A program that makes random calls below the directory that it is given, by paths and by descriptors.
ACTOR = r'''
import ctypes, os, random, sys
root, seed = sys.argv[1], int(sys.argv[2])
choose, libc, held = random.Random(seed), ctypes.CDLL(None, use_errno=True), []
NAMES = ['a', 'b', 'c', 'd', 'l', 'm']
def openat2(descriptor, path, flags, resolve):
    how = (ctypes.c_uint64 * 3)(flags, 0, resolve)
    return libc.syscall(437, descriptor, path.encode(), how, 24)
def listed(at):
    again = os.open('/proc/self/fd/%d' % at, os.O_RDONLY | os.O_DIRECTORY)
    os.listdir(again)
    os.close(again)
def path():
    return '/'.join(choose.choice(NAMES) for _ in range(choose.randint(1, 4)))
def one():
    name, other = choose.choice(NAMES), choose.choice(NAMES)
    dirs = [h for h in held if os.path.isdir(h)]
    at = choose.choice(dirs) if dirs else None
    full = root + '/w/' + path()
    what = choose.randrange(19)
    if what < 3: held.append(os.open(full, os.O_PATH | choose.choice([0, os.O_NOFOLLOW, os.O_DIRECTORY])))
    elif what == 3: os.mkdir(full)
    elif what == 4: os.close(os.open(full + 'x', os.O_WRONLY | os.O_CREAT | os.O_EXCL, 0o644))
    elif what == 5: os.symlink(choose.choice(['a', '../a', 'b/c', root + '/w/a', 'none']), full)
    elif what == 6: os.rename(full, root + '/w/' + path())
    elif what == 7: os.unlink(full)
    elif what == 8: os.rmdir(full)
    elif what == 9: os.readlink(full)
    elif what == 10: choose.choice([os.stat, os.lstat])(full)
    elif what == 11 and held: os.close(held.pop(choose.randrange(len(held))))
    elif what == 12 and held: held.append(os.dup(choose.choice(held)))
    elif what == 13 and held: os.readlink('/proc/self/fd/%d' % choose.choice(held))
    elif what == 14 and held: held.append(os.open('/proc/self/fd/%d' % choose.choice(held), os.O_PATH))
    elif what == 15: choose.choice([lambda: os.chdir(root + '/w'), lambda: os.mkdir(name), lambda: os.lstat(name)])()
    elif at is None: return
    elif what == 16: choose.choice([os.mkdir, os.rmdir, os.unlink])(name, dir_fd=at)
    elif what == 17: choose.choice([lambda: os.rename(name, other, src_dir_fd=at, dst_dir_fd=choose.choice(dirs)),
                                    lambda: os.symlink('a', name, dir_fd=at), lambda: os.mknod(name, dir_fd=at)])()
    elif what == 18: choose.choice([lambda: os.lstat(name, dir_fd=at), lambda: listed(at)])()
def below():
    top = os.open(root, os.O_PATH)
    for _ in range(30):
        text = choose.choice(['', '/']) + 'w/' + path()
        flags = os.O_PATH | os.O_CLOEXEC | choose.choice([0, os.O_NOFOLLOW])
        opened = openat2(top, text, flags, choose.choice([0x10, 0x08, 0x14]))
        if opened < 0: continue
        for call in (os.mkdir, os.unlink, os.rmdir, os.mknod):
            try: call(choose.choice(NAMES), dir_fd=opened)
            except OSError: pass
        os.close(opened)
def many(count):
    for _ in range(count):
        try: one()
        except OSError: pass
if sys.argv[3] == 'below':
    below()
elif sys.argv[3] == 'chroot':
    os.chroot(root)
    os.chdir('/w')
    root = ''
    many(60)
else:
    many(50)
    if os.fork() == 0:
        many(10)
        os._exit(0)
    os.wait()
    many(10)
'''


def can_trace():
    if not PROGRAM or not shutil.which('strace'):
        return False
    with tempfile.TemporaryDirectory() as room:
        done = subprocess.run(['strace', '-f', '-o', room + '/trace', 'true'], capture_output=True, check=False)
        return done.returncode == 0


def real_rows(root):
    """The entries of a real directory by their places, each with its kind."""
    found = {}
    for here, dirs, files in os.walk(root):
        for name in dirs + files:
            path = os.path.join(here, name)
            found[path[len(root):]] = 'link' if os.path.islink(path) else 'dir' if os.path.isdir(path) else 'file'
    return found


def replayed_rows(text, below):
    """The same of what a replay prints, below a place."""
    rows = [line.split(' ')[1:] for line in text.splitlines() if line.startswith('row ')]
    places, found = {'0': ''}, {}
    while rows:
        row = next(row for row in rows if row[0] in places)
        rows.remove(row)
        places[row[2]] = places[row[0]] + '/' + row[1]
        if places[row[2]].startswith(below + '/'):
            found[places[row[2]][len(below):]] = row[3]
    return found


def lay(room, how):
    """Makes a tree below a new directory, and the file `tree` with its rows. Gives the directory."""
    root = room + '/root'
    for name in ('w/a/b/c', 'w/d', 'w/b'):
        os.makedirs(os.path.join(root, name))
    for name in ('w/a/b/f', 'w/c'):
        os.mknod(os.path.join(root, name))
    os.symlink('a/b', root + '/w/l')
    os.symlink(root + '/w/d' if how == 'paths' else '/w/d', root + '/w/m')
    rows = [['link', root + name, os.readlink(root + name)] if kind == 'link' else [kind, root + name]
            for name, kind in sorted(real_rows(root).items())]
    with open(room + '/tree', 'w', encoding='utf-8') as file:
        json.dump(rows, file)
    return root


def trace(room, root, seed, how):
    with open(room + '/actor', 'w', encoding='utf-8') as file:
        file.write(ACTOR)
    program = [sys.executable, '-S', '-E', room + '/actor', root, str(seed), how]
    subprocess.run(['strace', '-f', '-s', '4096', '-o', room + '/trace', *program], check=True, cwd=room)


def wanted_replies(report):
    """How each call ended in the trace. Of a rename that has two faults Linux may tell another one (docs/LINUX.md)."""
    with open(report, encoding='utf-8') as file:
        found = re.findall(r'^call [0-9]+: line [0-9]+, (\w+): (reply .*)$', file.read(), re.M)
    return [re.sub(' fault .*', ' fault', reply) if name.startswith('rename') else reply for name, reply in found]


@unittest.skipUnless(can_trace(), 'no strace here that can look at a process, or no INROOT_PROGRAM')
class RealPrograms(unittest.TestCase):
    def compare(self, seed, how):
        with tempfile.TemporaryDirectory() as room:
            room = os.path.realpath(room)
            root = lay(room, how)
            trace(room, root, seed, how)
            status, script, said = run(['--rootfs', root, '--path', 'w', '--tree', room + '/tree', '--cwd', room,
                                        '--report', room + '/report', room + '/trace'])
            self.assertIn(status, (0, 1), said)
            self.assertNotIn('the tree says otherwise', said)
            self.assertNotIn('left out', said)
            replay = subprocess.run([PROGRAM, 'replay'], input=script, capture_output=True, check=True).stdout.decode()
            replies = wanted_replies(room + '/report')
            self.assertGreater(len(replies), 10)
            lines = [line + ' ' for line in replay.splitlines()]
            for reply in replies:
                self.assertTrue(any(line.startswith(reply + ' ') for line in lines), 'seed %d: %s' % (seed, reply))
            self.assertEqual(replayed_rows(replay, root), real_rows(root), 'seed %d' % seed)

    def test_by_paths_and_descriptors(self):
        for seed in range(ROUNDS):
            self.compare(seed, 'paths')

    def test_below_the_rootfs(self):
        for seed in range(ROUNDS):
            self.compare(seed, 'below')

    @unittest.skipUnless(os.geteuid() == 0, 'chroot(2) is for root')
    def test_in_a_chroot(self):
        for seed in range(ROUNDS):
            self.compare(seed, 'chroot')


if __name__ == '__main__':
    unittest.main()
