"""The frame of a check in Python, as frame.bash is that of one in bash. It counts what passed and what failed, and notes
what was skipped. The last line is 'N passed, M failed, K skipped'. The K lines before it say what was skipped and why:
'skipped: CHECK: WHAT: WHY'. A skip is neither passed nor failed. A check that imports it runs at the top of the repository.

Each check in Python imports it before its own parts, since it ends the check where Python is too old.
"""
import collections
import functools
import os
import shutil
import subprocess
import sys

CHECK = os.path.basename(sys.argv[0])
Ran = collections.namedtuple("Ran", "status out err")
passed, failed, skipped = 0, 0, []
OLDEST = (3, 10)


def verdict(holds, name, seen=""):
    """Counts a case, and where it failed names it and says what was seen."""
    global passed, failed
    if holds:
        passed += 1
    else:
        failed += 1
        print(f"FAILED {name}: {seen}" if seen else f"FAILED {name}", flush=True)


def skip(what, why):
    """Notes a case, or several, that this machine can't try."""
    skipped.append(f"{CHECK}: {what}: {why}")


def lacks(command, what):
    """Whether this machine has no such command. Then WHAT is skipped for want of it."""
    if shutil.which(command):
        return False
    skip(what, f"there is no {command} here")
    return True


def end():
    """Lists what was skipped, prints the count, and ends the check with the status that the count stands for."""
    for line in skipped:
        print(f"skipped: {line}")
    print(f"{passed} passed, {failed} failed, {len(skipped)} skipped")
    sys.exit(0 if failed == 0 and passed > 0 else 1)


if sys.version_info < OLDEST:
    skip("all of it", "it needs Python {}.{} or later, and this is {}.{}".format(*OLDEST, *sys.version_info[:2]))
    end()
os.chdir(os.path.dirname(os.path.dirname(os.path.realpath(__file__))))
sys.stdout.reconfigure(encoding="utf-8", errors="surrogateescape")


def text(data):
    """Bytes as text, each byte that is no text in a place of its own, so that equal texts are of equal bytes."""
    return data.decode("utf-8", "surrogateescape")


def read(path):
    """The text of a file."""
    with open(path, "rb") as it:
        return text(it.read())


def started(words, given="", **more):
    """Runs a command to its end. GIVEN is its standard input: a text, or an open file."""
    more = {"stdout": subprocess.PIPE, "stderr": subprocess.PIPE, **more}
    if isinstance(given, str):
        more["input"] = given.encode("utf-8", "surrogateescape")
    else:
        more["stdin"] = given
    done = subprocess.run(words, check=False, **more)
    return Ran(done.returncode, text(done.stdout or b""), text(done.stderr or b""))


@functools.lru_cache(None)
def find_program():
    """The program itself: that of INROOT_PROGRAM, or the one that ./inroot runs, which is built where it isn't yet."""
    path = os.environ.get("INROOT_PROGRAM") or started(["tools/program"], stderr=None).out.strip()
    if not os.access(path, os.X_OK):
        sys.exit(1)
    return path


def __getattr__(name):
    """PROGRAM is looked for where a check first asks for it."""
    if name == "PROGRAM":
        return find_program()
    raise AttributeError(name)


def run(*words, given="", **more):
    """Runs the program."""
    return started([find_program(), *words], given, **more)
