"""The files of specs/ and proofs/ as checks read them: what each defines, and what it takes from elsewhere.

A definition begins at the left margin, or two columns further in for each `module` or `mutual` around it. An import is
one line, as rt fmt lays it out.
"""
import collections
import functools
import os
import re

USE = re.compile(r"(pub )?use Rattle\.([^\s{]+?)(?:\.\{(.*)\})?(?: as (\S+))?$")
MOD = re.compile(r"(pub )?mod (\S+)$")
BLOCK = re.compile(r"module |(?:unfoldable |abbrev )*mutual$")
BEGINS = re.compile(r"(abbrev|unfoldable|pub|record|data)\b")
HEAD = re.compile(r"(?:abbrev |unfoldable |pub )*(record |data |ruleset )?(?:pub )?([^\s:(]+)")
MEMBER = re.compile(r"\s+(?:pub )?(\S+(?: \S+)*?) :")

# An import: its line, whether it passes on what it takes, the module, what the module is called here where it is taken as a
# whole, and else the names there, by their names here.
Use = collections.namedtuple("Use", "line passes module called names")


def use_of(number, line):
    """The import that a line is, or nothing."""
    found = USE.match(line)
    if not found:
        return None
    passes, module, names, called = found.groups()
    if names is None:
        return Use(number, bool(passes), module, called or module.rsplit(".", 1)[1], {})
    pairs = [item.strip().partition(" as ") for item in names.split(",")]
    return Use(number, bool(passes), module, None, {here or there: there for there, _, here in pairs})


class File:
    """A file: its definitions by their names, which of them are public, the modules below it, and its imports."""

    def __init__(self, text="", path=""):
        self.path, self.lines, self.lines_of, self.code_of, self.cases, self.taken, self.called = path, [], {}, {}, {}, {}, {}
        self.heads_of, self.public, self.modules, self.uses, self.is_data = {}, set(), {}, [], False
        if text:
            self.read(text)

    def read(self, text):
        self.lines = text.rstrip("\n").split("\n")
        now, comment, heads = None, [], []
        for number, line in enumerate(self.lines, 1):
            if line.startswith(("use ", "pub use ", "mod ", "pub mod ")):
                self.take(number, line)
                comment = comment if "use " in line else []
                continue
            # What stands in a module is two columns further in, and has the module's parameters.
            while heads and line.strip() and not line.startswith("  " * len(heads)):
                heads.pop()
            inner = line[2 * len(heads) :]
            if inner.startswith("-- ----") or not line.strip():
                comment = []
            elif inner.startswith("--"):
                comment.append(line)
            elif BLOCK.match(inner):
                self.lines_of[line], self.code_of[line], self.heads_of[line] = [line], [line], []
                heads, now, comment = [*heads, line], None, []
            else:
                now = self.add(inner, now, comment, heads)
                comment = []

    def add(self, line, now, comment, heads):
        """One line of a definition: its first, or one more of the present one."""
        if BEGINS.match(line):
            found = HEAD.match(line)
            kind, now = found.groups()
            self.lines_of[now], self.code_of[now], self.heads_of[now] = [], [], heads
            self.is_data = kind == "data "
            if "pub " in line[: found.start(2)]:
                self.public.add(now)
        elif now and self.is_data and re.match(r"\s+[A-Za-z_][\w'-]* :", line):
            self.cases[line.split()[0]] = now
        if now:
            self.lines_of[now] += [*comment, line]
            self.code_of[now].append(line)
        return now

    def take(self, number, line):
        """A line of the header: a module below, or an import."""
        below, use = MOD.match(line), use_of(number, line)
        if below:
            self.modules[below[2]] = bool(below[1])
        elif use:
            self.uses.append(use)
            if use.called:
                self.called[use.called] = use.module
            self.taken.update((here, (use.module, there)) for here, there in use.names.items())

    @functools.cached_property
    def gives(self):
        """The names that others may take from here."""
        cases = {it for it, of in self.cases.items() if of in self.public}
        return self.public | cases | {here for it in self.uses if it.passes for here in it.names}

    def members(self, name):
        """The constructors of a type, or the fields of a record."""
        found = (MEMBER.match(it) for it in self.code_of[name][1:])
        return {word for it in found if it for word in it[1].split()}


def read_all(top, kinds=("specs",)):
    """Each file of these folders of each crate, by the name of its module; a Lib.antt is that of its folder."""
    found = {}
    for crate in sorted(os.listdir(f"{top}/crates")):
        for folder, _, names in (row for kind in kinds for row in os.walk(f"{top}/crates/{crate}/{kind}")):
            for name in sorted(it for it in names if it.endswith(".antt")):
                path = f"{folder}/{name}"[len(f"{top}/crates/") :]
                with open(f"{folder}/{name}", encoding="utf-8") as it:
                    found[path[: -len(".antt")].removesuffix("/Lib").replace("/", ".")] = File(it.read(), path)
    return found
