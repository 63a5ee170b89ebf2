"""A tree of directories, files and links, as a script has it. It is read from JSON or a real directory, and walked."""

import json
import os
import stat

LINKS_MOST = 40
ENTRIES_MOST = 10000
KINDS = ('dir', 'file', 'link')


class Refused(Exception):
    """What can't be read or said, in a sentence."""


def parts_of(text):
    """The names of a path, `.` left out. A slash at the end is a `.`, as a path with it leads to a directory alone."""
    parts = [part for part in text.split('/') if part not in ('', '.')]
    return parts, text.endswith('/') or text.endswith('/.')


def is_utf8(text):
    return not any('\ud800' <= char <= '\udfff' for char in text)


class Node:
    def __init__(self, kind, text='', parent=None, name=''):
        self.kind, self.text, self.parent, self.name, self.entries = kind, text, parent, name, {}

    def place(self):
        names, node = [], self
        while node.parent:
            names.append(node.name)
            node = node.parent
        return tuple(reversed(names))

    def stands(self):
        """Whether it is an entry still, and so is each directory above it."""
        node = self
        while node.parent and node.parent.entries.get(node.name) is node:
            node = node.parent
        return node.parent is None


class Walked:
    """Where a walk came to: the places that it looked up, the node, or the directory and the name that it lacks."""

    def __init__(self):
        self.passed, self.node, self.parent, self.name = [], None, None, None


class Tree:
    def __init__(self):
        self.top = Node('dir')
        self.order = []

    def add(self, kind, names, text=''):
        """Adds an entry, unless it is there. Refused if it has no directory above it, or is there as another kind."""
        parent = self.top
        for name in names[:-1]:
            parent = parent.entries.get(name) if parent else None
        if not names or parent is None or parent.kind != 'dir':
            raise Refused('the tree has no directory above %r' % ('/' + '/'.join(names)))
        there = parent.entries.get(names[-1])
        if there is None:
            parent.entries[names[-1]] = node = Node(kind, text, parent, names[-1])
            self.order.append(node)
        elif (there.kind, there.text) != (kind, text):
            raise Refused('the tree has two entries %r' % ('/' + '/'.join(names)))

    def above(self, names):
        """Adds the directories of a place that aren't there."""
        for count in range(1, len(names) + 1):
            if not self.find(names[:count]):
                self.add('dir', names[:count])

    def find(self, names):
        node = self.top
        for name in names:
            node = node.entries.get(name) if node else None
        return node

    def walk(self, text, base, root, follow=True):
        """Walks a path from a directory. An absolute link leads to `root`, and `..` stays at it."""
        todo, directory = parts_of(text)
        walked, at, links = Walked(), root if text.startswith('/') else base, 0
        while todo:
            name = todo.pop(0)
            walked.parent, walked.name = at, name
            if at.kind != 'dir':
                return walked
            if name == '..':
                at = at if at is root or not at.parent else at.parent
                continue
            next_one = at.entries.get(name)
            walked.passed.append(at.place() + (name,))
            if next_one and next_one.kind == 'link' and (todo or directory or follow):
                links += 1
                if links > LINKS_MOST:
                    return walked
                more, slash = parts_of(next_one.text)
                directory = directory or (slash and not todo)
                at, todo = root if next_one.text.startswith('/') else at, more + todo
            elif next_one is None:
                self.pass_missing(walked, todo)
                return walked
            else:
                at = next_one
        walked.node = None if directory and at.kind != 'dir' else at
        return walked

    def pass_missing(self, walked, todo):
        """The places behind a missing one, by their names."""
        for name in todo:
            walked.passed.append(walked.passed[-1] + (name,))
            walked.parent = None

    def rows(self):
        """The tree as a script's list. Directories come before what is in them."""
        return [row_of(node) for node in self.order]


def row_of(node):
    row = [node.kind, '/' + '/'.join(node.place())]
    return row + [node.text] if node.kind == 'link' else row


def tree_of_rows(rows):
    tree = Tree()
    for row in rows:
        tree.add(row[0], row[1][1:].split('/'), *row[2:])
    return tree


def load_json(path, what):
    try:
        with open(path, encoding='utf-8') as file:
            return json.load(file)
    except OSError as error:
        raise Refused('%s %s: %s' % (what, path, error.strerror)) from None
    except (ValueError, RecursionError):
        raise Refused('%s %s: not JSON' % (what, path)) from None


def is_row(row):
    if not isinstance(row, list) or len(row) not in (2, 3) or not all(isinstance(part, str) for part in row):
        return False
    return row[0] in KINDS and (row[0] == 'link') == (len(row) == 3) and row[1].startswith('/')


def read_json(tree, path):
    """Adds the entries of a list, or of a script. Gives their places."""
    found = load_json(path, 'tree')
    rows = found.get('tree') if isinstance(found, dict) else found
    if not isinstance(rows, list):
        raise Refused('tree %s: neither a list of entries nor a script' % path)
    for number, row in enumerate(rows):
        if not is_row(row):
            raise Refused('tree %s: entry %d is none' % (path, number))
        tree.add(row[0], row[1][1:].split('/'), *row[2:])
    return {row[1] for row in rows}


def read_directory(tree, names, path):
    """Adds what a real directory has, below a place. Names and texts that aren't UTF-8 are left out, and counted."""
    left = 0
    todo = [(tuple(names), path)]
    while todo:
        place, here = todo.pop()
        try:
            with os.scandir(here) as found:
                entries = sorted(found, key=lambda entry: entry.name)
        except OSError as error:
            raise Refused('tree %s: %s' % (here, error.strerror)) from None
        for entry in entries:
            mode = entry.stat(follow_symlinks=False).st_mode
            text = os.readlink(entry.path) if stat.S_ISLNK(mode) else ''
            if not is_utf8(entry.name + text):
                left += 1
                continue
            kind = 'link' if stat.S_ISLNK(mode) else 'dir' if stat.S_ISDIR(mode) else 'file'
            tree.add(kind, place + (entry.name,), text)
            if kind == 'dir':
                todo.append((place + (entry.name,), entry.path))
    return left


def cut_to_names(rows, kept, names):
    """Leaves the rows that a walk can look up, and the places that are kept in any case. A walk can look up what has
    all its names in some path, or in the text of a link that it can look up. A directory that would lose all its
    entries keeps one, since it isn't empty."""
    names, before = set(names), -1
    while before != len(names):
        before = len(names)
        for row in rows:
            if row[0] == 'link' and set(parts_of(row[1])[0]) <= names:
                names.update(parts_of(row[2])[0])
    left = {row[1] for row in rows if row[1] in kept or set(parts_of(row[1])[0]) <= names}
    first = {}
    for row in rows:
        above = row[1].rpartition('/')[0]
        first[above] = min(first.get(above, row[1]), row[1])
    not_empty = {place.rpartition('/')[0] for place in left}
    left |= {place for above, place in first.items() if above in left and above not in not_empty}
    return [row for row in rows if row[1] in left]
