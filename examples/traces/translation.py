"""Makes the calls of a script of a trace's events: which of them touch the chosen path, and how a script says each."""

import re

from places import Node
from processes import Handle, Process, Processes, Unsaid, Where, is_name, joined
from strace_lines import descriptor_of, number_of, text_of

# Of each call that looks a path up: the arguments of the descriptor, the path and the flags, None where it has none.
LOOKS = {'stat': (None, 0, None), 'lstat': (None, 0, None), 'stat64': (None, 0, None), 'lstat64': (None, 0, None),
         'newfstatat': (0, 1, 3), 'fstatat64': (0, 1, 3), 'statx': (0, 1, 2),
         'access': (None, 0, None), 'faccessat': (0, 1, 3), 'faccessat2': (0, 1, 3)}
OPENS = {'open': (None, 0, 1), 'creat': (None, 0, None), 'openat': (0, 1, 2), 'openat2': (0, 1, 2)}
MAKES = {'mkdir': (None, 0, 'dir'), 'mkdirat': (0, 1, 'dir'), 'mknod': (None, 0, 'file'), 'mknodat': (0, 1, 'file'),
         'symlink': (None, 1, 'link'), 'symlinkat': (1, 2, 'link')}
REMOVES = {'unlink': (None, 0, None), 'rmdir': (None, 0, None), 'unlinkat': (0, 1, 2)}
RENAMES = {'rename': (None, 0, None, 1, None), 'renameat': (0, 1, 2, 3, None), 'renameat2': (0, 1, 2, 3, 4)}
READS = {'readlink': (None, 0, 1), 'readlinkat': (0, 1, 2)}
FORKS = ('clone', 'clone3', 'fork', 'vfork')
# What neither looks a name up nor changes an entry or an attribute: contents, memory, waiting.
PASSED_OVER = set('''read write pread64 pwrite64 readv writev preadv pwritev preadv2 pwritev2 lseek _llseek
    fstat fstatfs fsync fdatasync mmap mmap2 munmap ioctl epoll_ctl epoll_wait epoll_pwait epoll_create
    epoll_create1 poll ppoll select pselect6 sendfile copy_file_range splice tee vmsplice fadvise64 readahead
    pipe pipe2 socket socketpair accept4 eventfd2 signalfd4 timerfd_create memfd_create flock wait4 waitid exit
    exit_group kill tgkill sendmsg recvmsg sendto recvfrom sendmmsg recvmmsg setsockopt getsockopt
    sync_file_range syncfs getcwd bpf inotify_init1 umask getrandom prctl uname keyctl add_key sethostname
    setdomainname'''.split())
WITHOUT = {'mounts': 'mount umount umount2 move_mount open_tree fsmount fsopen fspick mount_setattr statfs statfs64',
           'modes': 'chmod fchmod fchmodat fchmodat2', 'owners': 'chown lchown fchown fchownat',
           'times': 'utime utimes utimensat futimesat', 'second names of a file': 'link linkat',
           'attributes': '''setxattr lsetxattr fsetxattr getxattr lgetxattr fgetxattr listxattr llistxattr flistxattr
               removexattr lremovexattr fremovexattr''',
           'contents': 'truncate ftruncate fallocate', 'programs': 'execve execveat uselib'}
MEANINGLESS = {name: 'the model has no ' + what for what, names in WITHOUT.items() for name in names.split()}
BELOW = {'RESOLVE_IN_ROOT', 'RESOLVE_BENEATH'}
RESOLVES = BELOW | {'RESOLVE_NO_SYMLINKS', 'RESOLVE_NO_MAGICLINKS', 'RESOLVE_NO_XDEV', 'RESOLVE_CACHED'}
# The errors that a call of a script may end in.
ERRORS = {'ENOENT', 'EEXIST', 'ENOTDIR', 'EISDIR', 'ELOOP', 'ENAMETOOLONG', 'EINVAL', 'ENOTEMPTY', 'EXDEV', 'EAGAIN',
          'EBADF'}
TWO_CALLS = 'two calls stand for one that makes the file or opens it'
REWALKED = 'a path from the root stands for one from a descriptor, which may be on another directory by then'


class Action:
    """A call of the trace as a script may have it. `ended` is the error, or None of one that succeeded."""

    def __init__(self, call, what, where, **more):
        self.line, self.name, self.what, self.where, self.ended = call.line, call.name, what, where, call.error
        self.lines, self.opened, self.restricted, self.notes = call.lines(), None, {}, []
        self.to = self.text = self.mode = self.expected = None
        self.made_before = self.made_alone = self.touches = False
        self.__dict__.update(more)

    def handles(self):
        """Those that the call may name by a label."""
        wheres = [where for where in (self.where, self.to) if where and where.handle]
        return [where.handle for where in wheres if not where.handle.is_rootfs]


class Translation:
    """Takes the events of a trace. `actions` are those below the rootfs, in the order in which they ended. `left` says
    what touches the chosen path and has no action, and `unknown` what may touch it."""

    def __init__(self, tree, rootfs, below, chosen, cwd=None, first=1, last=None):
        self.tree, self.below, self.chosen, self.first, self.last = tree, below, chosen, first, last
        self.processes = Processes(rootfs, '/'.join(below), cwd, self.release)
        self.actions, self.left, self.unknown, self.bad, self.cut = [], [], [], [], set()
        self.calls, self.halves, self.rootfs = 0, {}, tree.find(below)

    # ---- events

    def take(self, events):
        events = list(events)
        born = {}
        for event in events:
            if event.what == 'call' and event.name in FORKS and event.result and event.result > 0:
                born[event.begun] = event
        for event in events:
            if event.what in ('begun', 'call') and event.begun in born:
                fork = born.pop(event.begun)
                flags = set(re.findall('CLONE_[A-Z_]+', ' '.join(fork.args)))
                self.processes.forked(self.processes.of(fork.pid), fork.result, flags, fork.lines())
            getattr(self, 'take_' + event.what)(event)

    def take_bad(self, event):
        self.bad.append((event.line, event.why))

    def take_end(self, event):
        self.processes.ended(event.pid, {event.line})

    def take_superseded(self, event):
        self.processes.ended(event.pid, {event.line})
        if event.result in self.processes.all:
            self.processes.all[event.pid] = self.processes.all.pop(event.result)

    def take_begun(self, event):
        # The number is free from here on, and another thread may be given it before this call ends.
        number = re.match('([0-9]{1,9})(<|$)', event.args[0])
        if event.name == 'close' and number:
            self.processes.closed(self.processes.of(event.pid), int(number[1]), {event.line})

    def take_call(self, call):
        self.calls += 1
        self.halves[call.line], self.halves[call.begun] = call.begun, call.line
        if call.error and call.error.startswith('ERESTART'):
            return
        if call.result is None:
            if call.name not in PASSED_OVER:
                self.bad.append((call.line, 'a call that never ended'))
            return
        process = self.processes.of(call.pid)
        try:
            self.dispatch(call, process)
        except Unsaid as why:
            if call.name in OPENS and not call.error:
                self.processes.closed(process, call.result, call.lines())
            self.unknown.append((call.line, call.name, str(why)))
        except (IndexError, ValueError):
            self.bad.append((call.line, 'other arguments than %s has' % call.name))

    def dispatch(self, call, process):
        for table, take in ((LOOKS, self.look), (OPENS, self.open), (MAKES, self.make), (REMOVES, self.remove),
                            (RENAMES, self.rename), (READS, self.read)):
            if call.name in table:
                return take(call, process, *table[call.name])
        own = getattr(self, 'do_' + call.name.rstrip('0123456789'), None)
        if own:
            return own(call, process)
        if call.name not in PASSED_OVER and call.name not in FORKS:
            self.others(call, process)
        return None

    # ---- what a call touches

    def is_meant(self, line):
        return line >= self.first and (self.last is None or line <= self.last)

    def is_touched(self, passed, changes):
        """Whether one of these places is the chosen one or below it, or a change takes place above it."""
        for place in passed:
            if place[:len(self.chosen)] == self.chosen:
                return True
        last = passed[-1] if changes and passed else ()
        return len(self.below) < len(last) < len(self.chosen) and self.chosen[:len(last)] == last

    def walk(self, where, follow):
        if where.top is not None:
            return self.tree.walk(where.top, self.tree.top, self.tree.top, follow)
        return self.tree.walk(where.root, self.rootfs, self.rootfs, follow)

    def act(self, call, process, what, where, follow=False, changes=False, **more):
        """Notes an action below the rootfs, and whether it touches the chosen path. Gives where its walk came to
        too."""
        if not where.is_inside():
            raise Unsaid('its link may lead to the top, from where its descriptor has no path')
        action = Action(call, what, where, **more)
        walked = self.walk(where, follow)
        action.touches = self.is_meant(call.line) and self.is_touched(walked.passed, changes)
        action.lines |= process.lines
        if where.handle:
            action.lines |= where.handle.lines
            action.touches = action.touches or self.is_meant(call.line) and where.handle.touches
        self.actions.append(action)
        told = what.startswith('resolve') and call.error in (None, 'ENOENT')
        if told and (walked.node is None) != (call.error == 'ENOENT'):
            action.notes.append('the tree says otherwise than the trace whether this is there')
        return action, walked

    def place(self, call, process, descriptor, path):
        base = 'AT_FDCWD' if descriptor is None else call.args[descriptor]
        return self.processes.where(call.pid, process, base, call.args[path])

    # ---- calls that look

    def look(self, call, process, descriptor, path, flags):
        given = call.args[flags] if flags is not None and flags < len(call.args) else ''
        if text_of(call.args[path]) == ('', False):
            return
        where = self.place(call, process, descriptor, path)
        if not where.is_inside() or where.name == '':
            return
        follow = not ('AT_SYMLINK_NOFOLLOW' in given or call.name.startswith('lstat'))
        where = where.followed() if follow else where
        action, walked = self.act(call, process, 'resolve' if follow else 'resolve_nofollow', where, follow)
        if not call.error:
            self.release(self.handle_of(action, walked), call.line)

    def handle_of(self, action, walked):
        """What the action opens."""
        where = action.where
        is_rootfs = walked.node is self.rootfs
        top, root = where.top and where.top.rstrip('/'), where.root and where.root.rstrip('/')
        if is_rootfs:
            top, root = self.processes.below, ''
        handle = Handle(where.host, top, root, is_rootfs, action, action.lines, walked.node)
        handle.touches = action.touches
        action.opened = handle
        return handle

    def release(self, handle, line):
        if handle.opener:
            self.actions.append(Release(handle, line))

    def open(self, call, process, descriptor, path, flags):
        how = call.args[flags] if flags is not None else 'O_CREAT'
        resolve = self.resolve_flags(how) if call.name == 'openat2' else set()
        if resolve & BELOW:
            self.open_below(call, process, how, resolve)
            return
        where = self.place(call, process, descriptor, path)
        if where.is_inside() and where.name != '':
            restricted = {'no_links': True} if 'RESOLVE_NO_SYMLINKS' in resolve else {}
            if restricted and where.handle and where.handle.is_rootfs:
                where.root = text_of(call.args[path])[0]
            elif 'O_NOFOLLOW' not in how and not ('O_CREAT' in how and 'O_EXCL' in how):
                where = where.followed()
            self.open_inside(call, process, how, where, restricted)
        elif not call.error:
            handle = where.handle if where.is_inside() else Handle(where.host)
            self.processes.opened(process, call.result, handle, 'O_CLOEXEC' in how, call.lines())

    def open_inside(self, call, process, how, where, restricted):
        names = set(re.findall('O_[A-Z]+', how))
        follow = 'O_NOFOLLOW' not in names and not {'O_CREAT', 'O_EXCL'} <= names
        if 'O_TMPFILE' in names:
            self.leave(call, 'the model has no files without a name', [self.walk(where, True).passed])
            return
        if 'O_DIRECTORY' in names and follow and 'O_CREAT' not in names:
            top, root = where.top and where.top + '/', where.root and where.root + '/'
            where = Where(where.handle, None, top, root, where.host, where.links)
        makes = 'O_CREAT' in names
        what = 'resolve' if follow else 'resolve_nofollow'
        action, walked = self.act(call, process, what, where, follow, makes, restricted=restricted)
        if not follow and 'O_PATH' not in names and not makes:
            action.notes.append('O_NOFOLLOW opens a link here, where the kernel says ELOOP')
        if makes:
            self.open_made(action, walked, names, call)
        if not call.error:
            handle = self.handle_of(action, walked)
            self.processes.opened(process, call.result, handle, 'O_CLOEXEC' in how, action.lines)

    def open_made(self, action, walked, names, call):
        action.made_before, action.notes = True, [TWO_CALLS]
        action.expected = 'fault EEXIST' if walked.node else 'done'
        if call.error:
            # With O_EXCL it opens nothing that was there.
            action.made_alone = 'O_EXCL' in names
            action.expected = 'fault ' + call.error if action.made_alone and call.error in ERRORS else None
        if not call.error and not walked.node:
            self.put(walked, 'file')
            walked.node = walked.parent.entries.get(walked.name) if walked.parent else None

    @staticmethod
    def resolve_flags(how):
        """The RESOLVE flags of openat2(2)."""
        found = re.search(r'resolve=([^,}]*)', how)
        flags = set(found[1].strip().split('|')) - {'0'} if found else set()
        if flags - RESOLVES or not how.startswith('{'):
            raise Unsaid('its flags are not known')
        return flags

    def open_below(self, call, process, how, flags):
        """A call of openat2(2) that stays below its directory: the script has it if that is the rootfs."""
        base, text = self.processes.handle(process, call.args[0]), text_of(call.args[1])
        if text is None or text[1]:
            raise Unsaid('strace shows no whole path')
        restricted = {'no_links': True} if 'RESOLVE_NO_SYMLINKS' in flags else {}
        if 'RESOLVE_BENEATH' in flags:
            restricted['beneath'] = True
        if base.is_rootfs:
            self.open_inside(call, process, how, Where(base, None, None, text[0]), restricted)
        elif base.is_inside():
            self.open_elsewhere(call, process, how, base, text[0])
        elif not call.error:
            handle = Handle(joined(base.host, text[0]))
            self.processes.opened(process, call.result, handle, 'O_CLOEXEC' in how, call.lines())

    def open_elsewhere(self, call, process, how, base, text):
        """Such a call below another directory. Its descriptor is on what no call of the script opens."""
        node = self.walk(Where(base, '', base.top, base.root), True).node
        if node is None:
            raise Unsaid('it stays below a directory that the tree does not have')
        walked = self.tree.walk(text, node, node, 'O_NOFOLLOW' not in how)
        self.leave(call, 'it stays below another directory than the rootfs', [walked.passed], 'O_CREAT' in how)
        if not call.error:
            place = walked.passed[-1] if walked.passed else node.place()
            handle = Handle(None, '/'.join(place), lines=call.lines() | base.lines, node=walked.node)
            handle.touches = self.is_touched(walked.passed, False)
            self.processes.opened(process, call.result, handle, 'O_CLOEXEC' in how, call.lines())

    # ---- calls that change

    @staticmethod
    def put(walked, kind, text=''):
        """The tree as it is behind a call that made an entry."""
        if walked.parent and walked.parent.kind == 'dir' and is_name(walked.name):
            walked.parent.entries[walked.name] = Node(kind, text, walked.parent, walked.name)

    def make(self, call, process, descriptor, path, kind):
        where = self.place(call, process, descriptor, path)
        text = text_of(call.args[0]) if kind == 'link' else ('', False)
        if where.is_inside():
            if text is None or text[1]:
                raise Unsaid('strace shows no whole text of the link')
            _, walked = self.act(call, process, 'make_' + kind, where, changes=True, text=text[0])
            if not call.error:
                self.put(walked, kind, text[0])

    def remove(self, call, process, descriptor, path, flags):
        where = self.place(call, process, descriptor, path)
        if where.is_inside():
            is_dir = call.name == 'rmdir' or flags is not None and 'AT_REMOVEDIR' in call.args[flags]
            _, walked = self.act(call, process, 'remove_dir' if is_dir else 'remove_file', where, changes=True)
            if not call.error and walked.parent:
                walked.parent.entries.pop(walked.name, None)

    def rename(self, call, process, from_descriptor, from_path, to_descriptor, to_path, flags):
        old = self.place(call, process, from_descriptor, from_path)
        new = self.place(call, process, to_descriptor, to_path)
        given = call.args[flags] if flags is not None else '0'
        mode = {'0': 'plain', 'RENAME_NOREPLACE': 'noreplace', 'RENAME_EXCHANGE': 'exchange'}.get(given)
        inside = [where for where in (old, new) if where.is_inside()]
        if not inside:
            return
        both = old.top is not None and new.top is not None or old.root is not None and new.root is not None
        if len(inside) == 1 or mode is None or not both:
            why = 'one of its paths is outside of the rootfs' if len(inside) == 1 else 'the script has no such rename'
            self.leave(call, why, [self.walk(where, False).passed for where in inside], True)
            return
        action, walked = self.act(call, process, 'rename', old, changes=True, to=new, mode=mode)
        other = self.walk(new, False)
        action.touches = action.touches or self.is_meant(call.line) and self.is_touched(other.passed, True)
        action.lines |= new.handle.lines if new.handle else set()
        if not call.error:
            self.move(walked, other, mode)

    @staticmethod
    def move(old, new, mode):
        if not (old.parent and new.parent and old.name in old.parent.entries):
            return
        moved, there = old.parent.entries.pop(old.name), new.parent.entries.get(new.name)
        new.parent.entries[new.name], moved.parent, moved.name = moved, new.parent, new.name
        if mode == 'exchange' and there:
            old.parent.entries[old.name], there.parent, there.name = there, old.parent, old.name

    def read(self, call, process, descriptor, path, text):
        where = self.place(call, process, descriptor, path)
        if not where.is_inside():
            return
        shown = text_of(call.args[text])
        by_proc = where.name == '' and text_of(call.args[path])[0] != ''
        if by_proc and call.error:
            # There is no /proc for the process.
            return
        action, _ = self.act(call, process, 'below' if by_proc else 'read_link', where, text=None if by_proc else shown)
        if by_proc and shown and not shown[1] and not shown[0].endswith(' (deleted)'):
            # In a process whose root is the rootfs the text begins there.
            place = '/'.join(self.below) + shown[0] if process.directory.is_inside else None
            action.text = (Where(top=place) if place else self.processes.of_host(shown[0])), False

    # ---- descriptors and processes

    def do_close(self, call, process):
        if call.begun == call.line:
            self.processes.closed(process, descriptor_of(call.args[0])[0], call.lines())

    def do_close_range(self, call, process):
        first, last = number_of(call.args[0]), number_of(call.args[1]) if call.args[1].isdigit() else 1 << 32
        for number, (handle, _) in sorted(process.files.table.items()):
            if not call.error and first <= number <= last:
                if 'CLOSE_RANGE_CLOEXEC' in call.args[2]:
                    process.files.table[number] = handle, True
                else:
                    self.processes.closed(process, number, call.lines())

    def do_dup(self, call, process):
        handle, _ = process.files.table.get(descriptor_of(call.args[0])[0], (None, False))
        if handle and not call.error and call.result != descriptor_of(call.args[0])[0]:
            self.processes.opened(process, call.result, handle, 'O_CLOEXEC' in call.args[-1], call.lines())
        elif not handle and not call.error:
            self.processes.closed(process, call.result, call.lines())

    def do_fcntl(self, call, process):
        number = descriptor_of(call.args[0])[0]
        handle, _ = process.files.table.get(number, (None, False))
        if handle is None or call.error:
            return
        if call.args[1].startswith('F_DUPFD'):
            self.processes.opened(process, call.result, handle, 'CLOEXEC' in call.args[1], call.lines())
        elif call.args[1] == 'F_SETFD':
            process.files.table[number] = handle, 'FD_CLOEXEC' in call.args[2]
            handle.lines |= call.lines()

    def do_getcwd(self, call, process):
        found = text_of(call.args[0])
        if not call.error and found and not found[1] and process.directory.cwd is None and not process.directory.moved:
            process.directory.cwd = self.processes.host_handle(found[0])
            process.lines |= call.lines()

    def do_chdir(self, call, process):
        try:
            where = self.place(call, process, None, 0)
        except Unsaid:
            process.directory.cwd = process.directory.cwd if call.error else None
            raise
        if where.is_inside() and where.name != '':
            where = where.followed()
            action, walked = self.act(call, process, 'resolve', where, True)
            handle, lines = None if call.error else self.handle_of(action, walked), action.lines
        else:
            handle, lines = where.handle if where.is_inside() else Handle(where.host), call.lines()
        if not call.error:
            self.processes.go_to(process, handle, lines)

    def do_fchdir(self, call, process):
        handle, _ = process.files.table.get(descriptor_of(call.args[0])[0], (None, False))
        if handle and not call.error:
            self.processes.go_to(process, handle, call.lines())
        elif not call.error:
            process.directory.cwd = None

    def do_chroot(self, call, process):
        if call.error:
            return
        before, process.directory.moved, process.directory.is_inside = process.directory.copy(), call.name, False
        process.lines |= call.lines()
        where = self.processes.where(call.pid, Process(process.files, before), 'AT_FDCWD', call.args[0])
        process.directory.is_inside = where.is_inside() and self.walk(where, True).node is self.rootfs

    do_pivot_root = do_chroot

    def do_setns(self, call, process):
        if not call.error and ('CLONE_NEWNS' in call.args[1] or call.args[1] == '0'):
            process.directory.moved, process.directory.is_inside = call.name, False

    def do_unshare(self, call, process):
        if 'CLONE_FILES' in call.args[0] and not call.error:
            self.processes.unshared(process)
        if 'CLONE_FS' in call.args[0] and not call.error:
            process.directory = process.directory.copy()

    def do_execve(self, call, process):
        self.others(call, process)
        if not call.error:
            self.processes.executed(process, call.lines())

    do_execveat = do_execve

    def do_getdents(self, call, process):
        handle, _ = process.files.table.get(descriptor_of(call.args[0])[0], (None, False))
        if handle and handle.is_inside() and not call.error and call.result and not handle.listed:
            handle.listed = True
            self.act(call, process, 'list', Where(handle, '', handle.top, handle.root))

    # ---- calls that no script has

    def leave(self, call, why, all_passed, changes=False):
        if self.is_meant(call.line) and any(self.is_touched(passed, changes) for passed in all_passed):
            self.left.append((call.line, call.name, why))
            self.cut |= call.lines()

    def others(self, call, process):
        """A call that a script lacks is left out. It is said if a path of it, or its descriptor, touches the chosen
        path."""
        why = MEANINGLESS.get(call.name, 'this tool does not know the call')
        lines = set()
        for where in self.wheres(call, process):
            if not where.is_inside():
                continue
            lines |= process.lines | (where.handle.lines if where.handle else set())
            self.leave(call, why, [self.walk(where, True).passed])
        if call.line in self.cut:
            self.cut |= lines

    def wheres(self, call, process):
        """What each text of a call means, should it be a path; and what its first descriptor is on."""
        found = []
        for at, argument in enumerate(call.args):
            by_descriptor = bool(at) and re.match(r'([0-9]+|AT_FDCWD)(<|$)', call.args[at - 1]) is not None
            if not argument.startswith('"') or argument == '""' and not by_descriptor:
                continue
            try:
                base = call.args[at - 1] if by_descriptor else 'AT_FDCWD'
                found.append(self.processes.where(call.pid, process, base, argument))
            except Unsaid as why:
                self.unknown.append((call.line, call.name, str(why)))
        if not found and call.args and re.match(r'[0-9]+(<|$)', call.args[0]):
            handle, _ = process.files.table.get(descriptor_of(call.args[0])[0], (None, False))
            found = [Where(handle, '', handle.top, handle.root)] if handle else []
        return found


class Release(Action):
    """The last descriptor of what an action opened is closed."""

    def __init__(self, handle, line):
        self.line, self.name, self.what, self.where, self.ended = line, 'close', 'release', Where(handle), None
        self.lines, self.opened, self.restricted, self.notes = {line}, None, {}, []
        self.to = self.text = self.mode = self.expected = None
        self.made_before = self.made_alone = self.touches = False
