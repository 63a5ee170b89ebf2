"""Whether the program ends by itself in 128 kilobytes of stack, its words and its environment in them, however deep a script
is, and where no thread can be made."""
import functools
import hashlib
import resource

from frame import PROGRAM, read, started, verdict
from refusals_parts.machine import FOREVER, ROOM

STACK, AMPLE = 128 * 1024, 8 * 1024 * 1024
# Far less than the threads of eight workers take, with the usual stack of 8 MB each.
SPACE = 24 * 1024 * 1024
LEVELS = 64
COMMANDS = ("walk a/b/f", "replay", "replay --json", "draw", "draw --svg", "draw --html", "explore", "explore --html",
            "explore --part", "run --workers 1", "run --workers 8")
TOO_DEEP = (3, "", f"inroot: script: not json\ninroot: at most {LEVELS} lists and objects stand in one another\n")


def ran(words, given, stack=STACK, space=resource.RLIM_INFINITY, **env):
    """A command line in so much stack and address space."""
    def limit():
        resource.setrlimit(resource.RLIMIT_STACK, (stack, stack))
        resource.setrlimit(resource.RLIMIT_AS, (space, space))
    return started([PROGRAM, *words.split()], given, env=env, preexec_fn=limit)


@functools.lru_cache(None)
def with_ample(words, given):
    return ran(words, given, AMPLE)


def takes_little(what, words, given, **more):
    seen, wanted = ran(words, given, **more), with_ample(words, given)
    verdict(seen == wanted and wanted.status in (0, 3), f"inroot {words}, {what}", str(seen)[:300])


def nested(opening, closing, levels):
    """A script in which so many lists and objects stand in one another, or one less where they come in pairs. Five of them are
    around a key that no command looks at."""
    times = (levels - 5) // len(closing)
    value = times * opening + "0" + times * closing
    call = f'{{"op":"resolve","path":"a","x":{value}}}'
    return f'{{"version":1,"tree":[["dir","/a"]],"actors":[{{"root":"/","calls":[{call}]}}]}}'


def deep_scripts():
    for opening, closing in (("[", "]"), ('{"":', "}"), ('[{"":', "}]")):
        for words in COMMANDS:
            for strictly in ("", " --strict"):
                takes_little(f"the deepest script of {opening}", words + strictly, nested(opening, closing, LEVELS))
                for levels in (LEVELS + 1, 127, 128, 100000):
                    seen = ran(words + strictly, nested(opening, closing, levels))
                    verdict(seen == TOO_DEEP, f"inroot {words}{strictly}: {levels} levels of {opening}", str(seen)[:300])
    brackets = nested("[", "]", LEVELS).replace("0", '"' + 200 * '[\\"{\\\\' + '"')
    takes_little("brackets in a string", "replay", brackets)


def deep_part():
    """A line of a part, which ends in its digest."""
    for opening, closing in (("[", "]"), ('{"":', "}")):
        body = f'{{"part of":{127 * opening}0{127 * closing}'
        line = f'{body},"sum":"{hashlib.sha256(body.encode()).hexdigest()}"}}\n'
        seen = ran("explore --merge", line)
        verdict((seen.status, seen.out) == (4, "") and seen.err.startswith("inroot: merge: part 0 is none\n"),
                f"inroot explore --merge: a deep part of {opening}", str(seen)[:300])


def examples():
    for script in ("examples/base.json", "examples/jobs.json", "examples/attacks/moved-out.json"):
        for words in COMMANDS:
            takes_little(script, words, read(script))
    for words in ("--help", "explore --help", "--version"):
        takes_little("as it is", words, "")


def without_threads():
    """None is made; or there is room for some."""
    jobs = read("examples/jobs.json")
    none = {"LD_PRELOAD": f"{ROOM}/faults.so", "FAULT_THREAD": "1", "FAULT_LAST": str(FOREVER), "FAULT_PLAIN": "1"}
    for workers in range(1, 9):
        takes_little("no thread", f"run --workers {workers}", jobs, **none)
        takes_little("little room for threads", f"run --workers {workers}", jobs, stack=AMPLE, space=SPACE)
        takes_little("little room for threads and little stack", f"run --workers {workers}", jobs, space=SPACE)


def judge():
    deep_scripts()
    deep_part()
    examples()
    without_threads()
