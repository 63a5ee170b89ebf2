"""Which descriptors the processes of a trace have, and on what: where a path of a call begins."""

import re

from places import parts_of
from strace_lines import descriptor_of, text_of

PROC_FD = re.compile(r'/+(?:proc/+(?:self|thread-self|([0-9]{1,10}))|dev)/+fd/+([0-9]{1,9})(?:/+(.*))?$', re.S)
PATH_MOST = 4095


class Unsaid(Exception):
    """Why a call can't be placed, or said in a script."""


class Handle:
    """What a descriptor is on. `host` is its path. `top` and `root` are the paths that a script has for it, from the
    top and from the rootfs; None where there is none. `node` is what it is on in the tree."""

    def __init__(self, host=None, top=None, root=None, is_rootfs=False, opener=None, lines=(), node=None):
        self.host, self.top, self.root, self.is_rootfs = host, top, root, is_rootfs
        self.opener, self.node = opener, node
        self.lines, self.count, self.label, self.touches, self.listed = set(lines), 0, None, False, False

    def is_inside(self):
        return self.top is not None or self.root is not None

    def paths(self, below):
        """The two paths now: the program itself may have moved the directory since it opened it."""
        if self.is_rootfs or self.node is None or not self.node.stands():
            return self.top, self.root
        place, above = self.node.place(), tuple(part for part in below.split('/') if part)
        return '/'.join(place), '/'.join(place[len(above):]) if place[:len(above)] == above else None


class Where:
    """What a call's path means: `handle` and the one name behind it, if it has just one; a script's paths for it."""

    def __init__(self, handle=None, name=None, top=None, root=None, host=None, links='top'):
        self.handle, self.name, self.top, self.root, self.host, self.links = handle, name, top, root, host, links

    def is_inside(self):
        return self.top is not None or self.root is not None

    def followed(self):
        """The same, where a link at the end is followed: it may lead to the root of the process, which one path has."""
        top, root = (self.top, None) if self.links == 'top' else (None, self.root)
        return Where(self.handle, self.name, top, root, self.host, self.links)

    def is_rewalked(self):
        """Whether a path from the root stands here for one from a descriptor."""
        return self.handle is not None and not self.handle.is_rootfs


class Files:
    """A table of descriptors: of each its handle, and whether execve(2) closes it."""

    def __init__(self, table=()):
        self.table, self.users = dict(table), 1


class Process:
    def __init__(self, files, directory, lines=()):
        self.files, self.directory, self.lines = files, directory, set(lines)


class Directory:
    """Where the relative paths of a process begin. `moved` says by what it got another root than the trace began with,
    and `is_inside` whether that is the rootfs."""

    def __init__(self, cwd=None, moved=None, is_inside=False):
        self.cwd, self.moved, self.is_inside = cwd, moved, is_inside

    def copy(self):
        return Directory(self.cwd, self.moved, self.is_inside)


def is_name(text):
    return '/' not in text and text not in ('', '.', '..')


def joined(above, text):
    return None if above is None else above + '/' + text if above and text else above or text


class Processes:
    """`rootfs` is a list of names. `released` is told of a handle whose last descriptor was closed, and of the line."""

    def __init__(self, rootfs, below, cwd, released):
        self.rootfs, self.below, self.cwd, self.released, self.all = rootfs, below, cwd, released, {}

    def of(self, pid):
        if pid not in self.all:
            cwd = self.host_handle(self.cwd) if self.cwd and not self.all else None
            self.all[pid] = Process(Files(), Directory(cwd))
        return self.all[pid]

    # ---- paths

    def behind_rootfs(self, host):
        """What of a path of the host is behind the rootfs; None if it isn't below it."""
        names, rest = [], [part for part in host.split('/') if part not in ('', '.')]
        while names != self.rootfs:
            if not rest:
                return None
            part = rest.pop(0)
            names = names[:-1] if part == '..' else names + [part]
        depth = 0
        for part in rest:
            depth += -1 if part == '..' else 1
            if depth < 0:
                raise Unsaid('its .. leads out of the rootfs by name')
        return '/'.join(rest) + ('/' if rest and parts_of(host)[1] else '')

    def of_host(self, host):
        rest = self.behind_rootfs(host)
        return Where(host=host) if rest is None else Where(top=joined(self.below, rest), host=host)

    def host_handle(self, host, opener=None, lines=()):
        where = self.of_host(host)
        is_rootfs = where.top is not None and parts_of(where.top)[0] == parts_of(self.below)[0]
        return Handle(host, where.top, '' if is_rootfs else None, is_rootfs, opener, lines)

    def handle(self, process, argument):
        """The handle of a descriptor; of AT_FDCWD the process's own directory."""
        try:
            number, shown = descriptor_of(argument)
        except ValueError:
            raise Unsaid('its descriptor is none') from None
        if number is None:
            found = process.directory.cwd
        else:
            found = process.files.table.get(number, (None, False))[0]
        if found is None and shown and shown.startswith('/'):
            found = self.host_handle(shown)
        if found is None:
            hint = ' (--cwd)' if number is None else ''
            raise Unsaid('its path begins at a directory that the trace does not show' + hint)
        return found

    def where(self, pid, process, descriptor, argument):
        """What a path means that begins at a descriptor."""
        found = text_of(argument)
        if found is None or found[1]:
            raise Unsaid('strace shows no whole path')
        text = found[0]
        if len(text.encode('utf-8', 'surrogateescape')) > PATH_MOST:
            raise Unsaid('its path is longer than %d bytes' % PATH_MOST)
        if text.startswith('/'):
            return self.of_top(pid, process, text)
        base = self.handle(process, descriptor)
        if not base.is_inside():
            return self.of_text(pid, process, joined(base.host, text))
        return self.of_handle(base, text, process)

    def of_top(self, pid, process, text):
        """A path from the root of the process."""
        if not process.directory.moved or PROC_FD.match(text):
            return self.of_text(pid, process, text)
        if not process.directory.is_inside:
            raise Unsaid('its path begins at another root, after ' + process.directory.moved)
        return Where(root=text.lstrip('/') or '/', links='root')

    def of_text(self, pid, process, text):
        proc = PROC_FD.match(text)
        if not proc:
            return self.of_host(text)
        if proc[1] and int(proc[1]) != pid:
            return Where(host=text)
        base = process.files.table.get(int(proc[2]), (None, False))[0]
        if base is None:
            return Where(host=text)
        if proc[3] and not base.is_inside():
            return self.of_text(pid, process, joined(base.host, proc[3]))
        return self.of_handle(base, proc[3] or '', process)

    def of_handle(self, base, text, process):
        top, root = base.paths(self.below)
        links = 'root' if process.directory.is_inside else 'top'
        if is_name(text) or not text:
            # No call of the trace opened it: its own path stands for it.
            by_path = text and base.opener is None and base.host and not base.is_rootfs
            return Where(base, None if by_path else text, joined(top, text), joined(root, text), None, links)
        where = Where(base, None, joined(top, text), joined(root, text), None, links).followed()
        if not where.is_inside():
            raise Unsaid('it has more than one name behind a directory that has no path from there')
        return where

    # ---- descriptors

    def opened(self, process, number, handle, cloexec, lines):
        self.closed(process, number, lines)
        handle.count += 1
        handle.lines |= lines
        process.files.table[number] = handle, cloexec

    def closed(self, process, number, lines):
        handle, _ = process.files.table.pop(number, (None, False))
        if handle:
            self.let_go(handle, lines)

    def let_go(self, handle, lines):
        handle.count -= 1
        handle.lines |= lines
        if handle.count == 0:
            self.released(handle, max(lines))

    def go_to(self, process, handle, lines):
        """The process's own directory is another one. It counts as open meanwhile."""
        before, process.directory.cwd = process.directory.cwd, handle
        handle.count += 1
        handle.lines |= lines
        process.lines |= lines
        if before and before.count:
            self.let_go(before, lines)

    # ---- processes

    def forked(self, process, child, flags, lines):
        """A new process or thread, which shares what the flags say, and has a copy of the rest."""
        if child in self.all:
            self.ended(child, lines)
        files, directory = process.files, process.directory
        if 'CLONE_FILES' in flags:
            files.users += 1
        else:
            files = Files(files.table)
            for handle, _ in files.table.values():
                handle.count += 1
                handle.lines |= lines
        if 'CLONE_FS' not in flags:
            directory = directory.copy()
            if directory.cwd:
                directory.cwd.count += 1
        self.all[child] = Process(files, directory, process.lines | lines)

    def unshared(self, process):
        if process.files.users > 1:
            process.files.users -= 1
            process.files = Files(process.files.table)
            for handle, _ in process.files.table.values():
                handle.count += 1

    def executed(self, process, lines):
        """After execve(2): the descriptors are the process's own, and some are closed."""
        self.unshared(process)
        for number, (_, cloexec) in sorted(process.files.table.items()):
            if cloexec:
                self.closed(process, number, lines)

    def ended(self, pid, lines):
        process = self.all.pop(pid, None)
        if process:
            process.files.users -= 1
            for number in sorted(process.files.table) if process.files.users == 0 else ():
                self.closed(process, number, lines)
