"""Runs programs under checks/faults.c, which lets what they ask of the machine fail, and counts it."""
import collections
import itertools
import os
import resource
import shutil
import subprocess
import sys
import tempfile

from frame import PROGRAM, read, skip, started, verdict

PART = (sys.argv + ["gate"])[1]
# One request is refused alone; and then, in the long part, all later ones, too.
WANTS = [False, True] if PART == "long" else [False]
FOREVER = 1000000000
SECONDS = 600
# What a program is run by, and the faults of each run: a checker of memory has memory not filled.
UNDER, PLAIN = [], {}
ROOM_ITSELF = tempfile.TemporaryDirectory()
ROOM = ROOM_ITSELF.name
NO_MEMORY = (4, "", "inroot: no memory\n")
# The status, both streams, and what the library counted: requests for memory, reads, writes, what failed of them,
# blocks of memory that were left, the most memory in KB, and threads.
Ran = collections.namedtuple("Ran", "status out err requests reads writes met live peak threads")
# What does not end by itself is ended.
resource.setrlimit(resource.RLIMIT_CPU, (300, resource.getrlimit(resource.RLIMIT_CPU)[1]))


def is_built():
    """Builds the library, or skips what takes it where no C compiler builds an empty one."""
    compiler = shutil.which(os.environ.get("CC") or "cc")
    words = [compiler, "-O2", "-shared", "-fPIC", "-o", f"{ROOM}/faults.so", "-x", "c"]
    if not compiler or started([*words, "/dev/null", "-ldl"]).status:
        skip("refused memory, reads, writes and threads, and memory measured", "no C compiler here builds a shared library")
        return False
    made = started([*words, "checks/faults.c", "-ldl"])
    verdict(made.status == 0, "checks/faults.c is not built", made.err)
    return made.status == 0


def write(name, text):
    """A file of that name in the room, by its path."""
    with open(f"{ROOM}/{name}", "w", encoding="utf-8") as it:
        it.write(text)
    return f"{ROOM}/{name}"


def run_under(words, script="/dev/null", stdout=subprocess.PIPE, **faults):
    """Under these faults, named without their FAULT_; the file is standard input. A run that waits for ever is ended, and so
    has left no count."""
    log = write("log", "0 0 0 0 -1 0 0")
    env = {**os.environ, "LD_PRELOAD": f"{ROOM}/faults.so", "FAULT_LOG": log}
    env.update((f"FAULT_{name}", str(value)) for name, value in {**PLAIN, **faults}.items())
    with open(script, "rb") as given:
        try:
            ran = started(UNDER + words, given, env=env, stdout=stdout, timeout=SECONDS)
        except subprocess.TimeoutExpired:
            ran = (124, "", "it did not end")
    return Ran(*ran, *map(int, read(log).split()))


def run(script, *words, **more):
    return run_under([PROGRAM, *words], script, **more)


def each_refusal(words, script="/dev/null", lasts=False, start=1):
    """The runs in which one request for memory after another is refused, and where it lasts all later ones, too, up to that in
    which none is. Each comes with its number."""
    for number in itertools.count(start):
        ran = run_under(words, script, MEMORY=number, **({"LAST": FOREVER} if lasts else {}))
        yield number, ran
        if ran.met == 0 and ran.live >= 0:
            return


def seen(ran):
    return f"status {ran.status}, {ran.live} blocks left, told '{ran.err}', printed '{ran.out[:2000]}'"


def ends(ran, status, out, err):
    """Whether the run ended so, and left no block of memory."""
    return ran[:3] == (status, out, err) and ran.live == 0


def ends_first(ran, status, out, err):
    """The same, but of the lines of an error only the first ones came, one at least. The others are left out where they can't
    be made or written."""
    return ran.err.endswith("\n") and err.startswith(ran.err) and ends(ran, status, out, ran.err)


def is_quiet(ran):
    return ran.status == 0 and ran.err == ""
