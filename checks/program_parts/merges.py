"""Searches in parts, that are merged; and searches that take much memory, or all that they may."""
import glob
import hashlib
import itertools
import re
import shlex
import tempfile

from frame import PROGRAM, lacks, read, run, started, verdict

MANY = ["--states", "10000000"]
# What a part has before the words of its question, and behind a turn that it begins with: those of the shell.
PART = f"{shlex.quote(PROGRAM)} explore --part {' '.join(MANY)} --begin"
MOVED_OUT = "examples/attacks/moved-out.json"


def beginnings(script):
    """All beginnings of two turns, those too that can't be taken."""
    actors = range(read(script).count('{"root"'))
    return [f"{one},{other}" for one, other in itertools.product(actors, actors)]


def one_by_one(room, script, words):
    given = read(script)
    for begin in beginnings(script):
        with open(f"{room}/{begin}", "wb") as part:
            if run("explore", "--part", *MANY, "--begin", begin, *words, given=given, stdout=part).status:
                return False
    return True


def by_parallel(room, script, words):
    command = f"{PART} {{}} {shlex.join(words)} <{script} >{room}/{{}}"
    return started(["parallel", "--no-notice", "--jobs", "4", command, ":::", *beginnings(script)]).status == 0


def by_make(room, script, words):
    parts = " ".join(beginnings(script))
    command = f"{PART} $@ {shlex.join(words)} <{script} >{room}/$@"
    makefile = f"parts := {parts}\nall: $(parts)\n.PHONY: $(parts)\n$(parts):\n\t{command}\n"
    return started(["make", "-s", "-j", "4", "-f", "-"], makefile).status == 0


def is_merged(how, script, *words):
    """Whether parts that were made so come to the whole but for its states, which parts share, and to its status; and how many
    states the whole goes through."""
    whole = run("explore", *MANY, *words, given=read(script))
    states = re.search("^states (.*)\n", whole.out, re.M)
    with tempfile.TemporaryDirectory() as room:
        if not states or not how(room, script, words):
            return False, 0
        parts = sorted(glob.glob(f"{room}/*"))
        merged = [run("explore", "--merge", given="".join(map(read, parts))), run("explore", "--merge", *parts, given="")]
    return {it[:2] for it in merged} == {(whole.status, whole.out.replace(states[0], ""))}, int(states[1])


def merged():
    """One after another, by GNU parallel where it is installed, and by make."""
    properties = ["--outside", "--never", "reply 0 0 fault EAGAIN", "--always", "held 0 1"]
    condition = ["--when", "reply 0 0 fault", "--when", "held 1 1", "--never", "row"]
    for script in sorted(glob.glob("examples/attacks/*.json")) + ["checks/cases/three-at-once.json"]:
        verdict(is_merged(one_by_one, script, *properties)[0], f"parts merged: {script}")
        verdict(is_merged(one_by_one, script, "--cuts", "1", "--actor", "0")[0], f"parts merged of one actor: {script}")
        verdict(is_merged(one_by_one, script, *condition)[0], f"parts merged by a condition: {script}")
    for name, how in (("make", by_make), ("parallel", by_parallel)):
        if lacks(name, f"parts of searches by {name}"):
            continue
        for script in ("remove-mkdir-move-above", "remove-mkdir-move-parent", "remove-mkdir-move-back"):
            holds, states = is_merged(how, f"benches/searches/{script}.json", "--never", "reply 0 0 fault EAGAIN")
            verdict(holds, f"parts by {name} merged: {script}")
            verdict(states > 10000, f"more than 10,000 states: {script}")


# ---- parts that can't be merged


def sealed(body):
    """A line of a part, which has the digest of what stands before it."""
    return f'{body},"sum":"{hashlib.sha256(body.encode()).hexdigest()}"}}'


def is_alone(ran, wanted):
    """Such an error ends the run, and nothing is printed."""
    return ran == (4, "", wanted)


def fails_to_merge(name, wanted, *parts):
    ran = run("explore", "--merge", given="".join(parts))
    verdict(is_alone(ran, f"inroot: merge: {wanted}\n"), name, f"status {ran.status}, '{ran.err}'")


def wrong_parts():
    """A part too few, one too many, and one of another question."""
    script = read(MOVED_OUT)
    begun = {it: run("explore", "--part", *MANY, "--begin", it, given=script) for it in beginnings(MOVED_OUT)}
    parts = {begin: ran.out for begin, ran in begun.items()}
    first, *others = parts.values()
    verdict([it.status for it in begun.values()] == 4 * [0], "parts of an attack")
    fails_to_merge("a part too few", "no part has turn 1 of part 0 by actor 1", first, parts["1,0"], parts["1,1"])
    fails_to_merge("a part too many", "parts 0 and 4 overlap", first, *others, first)
    for name, given, *words in (("other options", script, "--outside"), ("another condition", script, "--when", "row"),
                                ("another script", script + "\n")):
        other = run("explore", "--part", "--begin", "1,1", *words, given=given).out
        fails_to_merge(f"a part of {name}", "part 1 is of another question than part 0", first, other)
    own = parts["0,1"].rstrip("\n")
    verdict(sealed(own[:-74]) == own, "a part has its digest")
    changed = parts["1,0"].replace('"schedules":', '"schedules":1', 1)
    fails_to_merge("a changed part", "part 2 isn't as it was written", first, parts["0,1"], changed)


def long_line(size):
    """The line of a part that has so many bytes."""
    return sealed('{"part of":{"properties":[]},"begin":[],"might":[],"schedules":1,"turns":0,"outcomes":[]'.ljust(size - 74))


def long_parts():
    """More than a merge reads."""
    one, most = long_line(0) + "\n", long_line(16777215) + "\n"
    fails_to_merge("65,536 parts", "parts 0 and 1 overlap", 65536 * one)
    fails_to_merge("65,537 parts", "there are more than 65536 parts", 65537 * one)
    ran = run("explore", "--merge", given=long_line(16777216))
    verdict(ran.status == 0, "a part of 16,777,216 bytes", f"status {ran.status}, '{ran.err}'")
    fails_to_merge("a part of 16,777,217 bytes", "part 0 is longer than 16777216 bytes", long_line(16777217))
    too_long = "parts are longer than 268435456 bytes"
    fails_to_merge("parts of 268,435,456 bytes", "parts 0 and 1 overlap", 16 * most)
    fails_to_merge("parts of 268,435,457 bytes", too_long, 16 * most, "\n")
    with open("/dev/zero", "rb") as zeros:
        ran = within(1500000, "--merge", given=zeros)
    verdict(is_alone(ran, f"inroot: merge: {too_long}\n"), "a merge without an end", f"status {ran.status}, '{ran.err}'")


# ---- memory


def within(kilobytes, *words, given):
    """An exploration that doesn't get more memory than that."""
    limited = ["bash", "-c", 'ulimit -v "$0" && exec timeout 60 "$@"', str(kilobytes), PROGRAM, "explore", *words]
    return started(limited, given)


def listings():
    """Two actors list 3,000 names six times each, and make a file."""
    script = started(["benches/dear", "lists", "2", "6"]).out
    whole = run("explore", given=script)
    name = "an exploration of twelve listings"
    # A search that memory is refused to writes nothing, and says so.
    verdict(is_alone(within(100000, given=script), "inroot: no memory\n"), f"{name} in 100 MB")
    # One that may take 100 MB ends by its own error before it takes 200, a part of it too; one that may take a gigabyte
    # answers as ever.
    much = "inroot: explore: memory\ninroot: more than 100 MB; --memory takes up to 1000000\n"
    verdict(is_alone(within(200000, "--memory", "100", given=script), much), f"{name} with --memory 100")
    part = within(200000, "--part", "--begin", "0", "--memory", "100", given=script)
    verdict(is_alone(part, much), "a part of it with --memory 100")
    ran = run("explore", "--memory", "1000", given=script)
    verdict(whole.status == 0 and ran.out == whole.out, f"{name} with --memory 1000")


def judge():
    merged()
    wrong_parts()
    long_parts()
    listings()
