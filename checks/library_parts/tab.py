"""Presses TAB in a shell behind what a user typed, then ENTER, and compares the words that the program gets.

usage: tab.py SHELL PREFIX. PREFIX is where inroot-fs is installed. The names that are completed are those that somebody
else chose, so that a shell runs them, or a program takes them for options. Prints what is wrong, and exits 1 then.
"""
import fcntl
import os
import pty
import select
import shutil
import signal
import struct
import sys
import tempfile
import termios
import time

TOP = os.path.dirname(os.path.dirname(os.path.dirname(os.path.realpath(__file__))))
RUNS = "touch PWNED"
SECONDS = 30
# How far from the end of what a shell wrote its prompt is looked for.
PROMPT_TAIL = 60
STARTS = {
    "bash": (["bash", "--norc", "--noprofile", "-i"], "source {0}/completions/{1}.bash; PS1='AT''ROOT>'"),
    "zsh": (["zsh", "-f", "-i"],
            "fpath=({0}/completions $fpath); autoload -U compinit; compinit -u -D; PS1='AT''ROOT>'"),
    "fish": (["fish", "-i"], "source {0}/completions/{1}.fish; function fish_prompt; echo -n 'AT''ROOT>'; end"),
}
# Names of one root, of which a first sign says which is meant.
NAMES = [
    f"a$({RUNS})", f"b`{RUNS}`", f"c;{RUNS}", f"d*(e:{RUNS}:)", "e'\"\\", f"f({RUNS})", "g h", "i{1,2}", "j$HOME",
    "k&", "l|m", "n\n--recursive", "o\tp", "q!!", "r\\n", "s>PWNED", "u ", "v#", "w=ls", "y\x1b[2J", "z^2", "5\udcff",
]
# What a shell can't complete: it splits a candidate at that sign.
LEFT_OUT = {"fish": ["o\tp"]}
ROOT = f"bo*(e:{RUNS}:)"
QUOTED_ROOT = f"bo\\*\\(e:{RUNS.replace(' ', chr(92) + ' ')}:\\)"


class Terminal:
    """A shell on a terminal of its own, in whose PATH a program notes its words and its standard input."""

    def __init__(self, shell, program, work, prefix, below=""):
        words, source = STARTS[shell]
        self.noted = os.path.join(work, "noted")
        directory = os.path.join(work, "bin")
        os.makedirs(directory, exist_ok=True)
        with open(os.path.join(directory, program), "w", encoding="utf-8") as it:
            it.write(f"#!/bin/sh\n[ \"$2\" != ls ] || exec '{prefix}/bin/{program}' \"$@\"\nexec >'{self.noted}.new'\n"
                     f"printf '%s\\0' \"$@\"\n[ -t 0 ] || cat\nmv '{self.noted}.new' '{self.noted}'\n")
        os.chmod(os.path.join(directory, program), 0o755)
        more = {"HOME": work, "XDG_CONFIG_HOME": work, "XDG_DATA_HOME": work, "TERM": "vt100", "LC_ALL": "C.UTF-8",
                "INPUTRC": "/dev/null", "PATH": directory + ":" + os.environ["PATH"], "ZDOTDIR": work}
        self.pid, self.fd = pty.fork()
        if self.pid == 0:
            os.chdir(os.path.join(work, "at", below))
            os.execvpe(words[0], words, {**os.environ, **more})
        fcntl.ioctl(self.fd, termios.TIOCSWINSZ, struct.pack("HHHH", 50, 400, 0, 0))
        self.told = b""
        self.type(source.format(TOP, program) + "\r")
        # zsh reads all its completions first.
        if not self.wait(lambda: b"ATROOT>" in self.told, 10 * SECONDS):
            raise TimeoutError(f"{shell} doesn't start")

    def type(self, text):
        os.write(self.fd, text.encode())

    def wait(self, until, seconds=SECONDS):
        """Reads what the shell writes until something holds, and says whether it does."""
        end = time.monotonic() + seconds
        while not until() and time.monotonic() < end:
            if select.select([self.fd], [], [], 0.02)[0]:
                self.told += os.read(self.fd, 65536)
        return until()

    def words(self, line):
        """The words that the program gets of a line, behind which ENTER is pressed; none where it isn't run."""
        if os.path.exists(self.noted):
            os.remove(self.noted)
        self.told = b""
        self.type(line + "\r")
        if not self.wait(lambda: os.path.exists(self.noted)):
            self.type("\x03")
            return None
        self.wait(lambda: b"ATROOT>" in self.told[-PROMPT_TAIL:], 0.5)
        with open(self.noted, encoding="utf-8", errors="surrogateescape") as it:
            # Behind the last NUL there is the standard input, where that is a file.
            return [word for word in it.read().split("\0") if word]

    def end(self):
        os.close(self.fd)
        os.kill(self.pid, signal.SIGKILL)
        os.waitpid(self.pid, 0)


def make(directory, names):
    os.makedirs(directory)
    for name in names:
        with open(os.path.join(directory, name), "w", encoding="utf-8") as it:
            it.write("text")


def make_roots(work):
    """The directories of the user, whose names and whose entries' names others chose."""
    at = os.path.join(work, "at")
    make(f"{at}/box", NAMES)
    make(f"{at}/box/t$({RUNS})", ["only"])
    make(f"{at}/dash", ["-rf"])
    make(f"{at}/dash2/sub", ["-rf"])
    make(f"{at}/tilde", ["~root"])
    make(f"{at}/equals", ["=ls"])
    make(f"{at}/lines", ["x\n--recursive"])
    make(f"{at}/{ROOT}", ["only"])
    make(f"{at}/x\n..", ["only"])
    make(f"{at}/option", ["-q"])
    make(f"{at}/scripts", ["x\n--strict", f"z$({RUNS})"])
    os.symlink(f"{at}/dash2", f"{at}/box/Aout")


def root_cases(shell):
    """Lines of inroot-fs with a TAB, and the words that are to come of them."""
    for name in NAMES:
        left = name in LEFT_OUT.get(shell, [])
        yield f"inroot-fs box rm {name[0]}\t", ["box", "rm", name[0] if left else name]
    # fish offers what begins with a dot behind a dot alone, and doesn't quote a tilde.
    fish = shell == "fish"
    yield "inroot-fs dash rm \t", ["dash", "rm"] if fish else ["dash", "rm", "./-rf"]
    yield "inroot-fs dash rm ./\t", ["dash", "rm", "./-rf"]
    yield "inroot-fs dash2 rm sub/\t", ["dash2", "rm", "sub/-rf"]
    yield "inroot-fs tilde rm \t", ["tilde", "rm"] if fish else ["tilde", "rm", "~root"]
    yield "inroot-fs tilde rm ./\t", ["tilde", "rm", "./~root"]
    yield "inroot-fs equals rm \t", ["equals", "rm", "=ls"]
    yield "inroot-fs lines rm \t", ["lines", "rm", "x\n--recursive"]
    yield "inroot-fs box cat t\\$\\(touch\\ PWNED\\)/\t", ["box", "cat", f"t$({RUNS})/only"]
    yield "inroot-fs box cat Aout/\t", ["box", "cat", "Aout/"]
    for root in (QUOTED_ROOT, f"'{ROOT}'"):
        yield f"inroot-fs {root} cat \t", [ROOT, "cat", "only"]
    yield "inroot-fs x\t cat only", ["x\n..", "cat", "only"]
    yield "inroot-fs x\\n.. ca\t", ["x\n..", "cat"] if fish else ["xn..", "cat"]
    yield "inroot-fs box resol\t out", ["box", "resolve", "out"]
    yield "inroot-fs box rm --r\t out", ["box", "rm", "--recursive", "out"]
    yield "inroot-fs box cat --exa\t out", ["box", "cat", "--exact", "out"]


def script_cases(_):
    """Lines of inroot, to which a file comes as the last argument or behind <."""
    yield "inroot rep\t", ["replay"]
    yield "inroot walk --str\t a", ["walk", "--strict", "a"]
    yield "inroot walk x\t", ["walk", "x"]
    yield "inroot walk a z\t", ["walk", "a", f"z$({RUNS})"]
    yield "inroot replay z\t", ["replay", f"z$({RUNS})"]
    yield "inroot explore --html z\t", ["explore", "--html", f"z$({RUNS})"]
    yield "inroot replay < x\t", ["replay", "text"]
    yield "inroot replay < z\t", ["replay", "text"]
    yield "inroot draw --color al\t", ["draw", "--color", "always"]
    yield "inroot help rep\t", ["help", "replay"]


def option_cases(shell):
    """A line of inroot where the one file has the name of an option."""
    # bash writes what all options begin with.
    yield "inroot walk a \t b", ["walk", "a", "--", "b"] if shell == "bash" else ["walk", "a", "b"]
    yield "inroot replay < \t", ["replay", "text"]


def main(shell, prefix):
    wrong = 0
    work = os.path.realpath(tempfile.mkdtemp())
    try:
        make_roots(work)
        for program, below, cases in [("inroot-fs", "", root_cases), ("inroot", "scripts", script_cases),
                                      ("inroot", "option", option_cases)]:
            terminal = Terminal(shell, program, work, prefix, below)
            for line, wanted in cases(shell):
                got = terminal.words(line) or [""]
                got[0] = got[0].rstrip("/")
                if got != wanted:
                    wrong += 1
                    print(f"{shell}: {line!r} gives {got}, and not {wanted}")
            terminal.end()
        for directory, _, names in os.walk(work):
            if "PWNED" in names:
                wrong += 1
                print(f"{shell}: a name was run in {directory!r}")
    finally:
        shutil.rmtree(work)
    return wrong != 0


if __name__ == "__main__":
    sys.exit(main(*sys.argv[1:]))
