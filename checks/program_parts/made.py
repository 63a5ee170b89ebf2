"""Scripts that are made, each by a rule, and what the program comes to over them."""
import re
import shlex
import subprocess
import time

from frame import PROGRAM, lacks, read, run, skip, started, verdict
from program_parts.cases import comes_to, refuses, rows

BASE, ATTACK = read("examples/base.json"), read("examples/attacks/moved-out.json")
# All entries of these as they stood.
ENTRIES = """row 0 c 1 dir
row 0 secret 9 dir
row 1 a 2 dir
row 1 abs 5 link
row 1 dang 8 link
row 1 loop 7 link
row 1 up 6 link
row 2 b 3 dir
row 3 f 4 file
row 9 key 10 file
"""


# ---- what is refused


def holds(value):
    """A script in which an ignored key holds the value, with what its backslashes stand for."""
    value = value.encode().decode("unicode_escape").encode("latin-1").decode("utf-8", "surrogateescape")
    return f'{{"version":1,"tree":[],"actors":[{{"root":"/","calls":[]}}],"x":{value}}}'


def refused():
    for by_walk, by_replay, version, size, tree, actors, schedule in rows("keys"):
        script = f'{{"schedule":{schedule},"actors":{actors},"tree":{tree},"lines":{size},"version":{version}}}'
        refuses(f"walk, {by_walk}: {script}", by_walk, "walk", ".", given=script + "\n")
        refuses(f"replay, {by_replay}: {script}", by_replay, "replay", given=script + "\n")
        refuses(f"draw, {by_replay}: {script}", by_replay, "draw", given=script + "\n")
    for value in [*rows("json")[0], "[" * 63 + "]" * 63]:
        refuses(f"JSON: {value[:40]}", "", "walk", ".", given=holds(value))
    for value in [*rows("no json")[0], "[" * 64 + "]" * 64, "[" * 9999]:
        refuses(f"no JSON: {value[:40]}", "not json", "replay", given=holds(value))
    one = holds("1")
    refuses("a byte order mark", "not json", "walk", ".", given="\ufeff" + one)
    refuses("more after the object", "not json", "draw", given=one + " 1")
    refuses("of equal keys the last one", "version", "replay", given=holds('1,"version":3'))
    refuses("of equal keys the last one, which is right", "", "replay", given=holds('1,"tree":7,"tree":[]'))
    refuses("as long as it may be", "", "replay", given=one + " " * 1048512)
    refuses("a byte longer", "too long", "replay", given=one + " " * 1048513)


# ---- what is as long as it may be, and longer


def entries(count):
    """A script with so many directories, each an entry of the top."""
    tree = ",".join(f'["dir","/{it}"]' for it in range(count))
    return f'{{"version":1,"tree":[{tree}],"actors":[{{"root":"/","calls":[]}}]}}'


def told(*lines):
    return "".join(f"inroot: {line}\n" for line in lines)


def as_long_as_may_be():
    for count, element, front, back, at, wanted in rows("lists"):
        script = f'{{"version":1,"tree":[],"actors":[{front}{int(count) * element}{back}'
        if at:
            comes_to(f"{count} times {element}", 3, "", told(f"script: {at}", wanted, "..."), "replay", given=script)
        else:
            refuses(f"{count} times {element}", "", "replay", given=script)
    comes_to("as many entries as there may be", 0, "opened dir 10000 /9999\n", "", "walk", "9999", given=entries(10000))
    refuses("as many entries as there may be, in a replay", "", "replay", given=entries(10000))
    for command in ("walk 9999", "replay", "run --workers 1"):
        too_many = told("script: tree", "a tree has at most 10000 entries", "...")
        comes_to(f"an entry more: {command}", 3, "", too_many, *command.split(), given=entries(10001))


def busy(*counts):
    """As many actors, with each so many look-ups."""
    calls = (",".join(count * ['{"op":"resolve","path":"e"}']) for count in counts)
    actors = ",".join(f'{{"root":"/","calls":[{it}]}}' for it in calls)
    return f'{{"version":1,"tree":[],"actors":[{actors}]}}'


def long_runs_drawn():
    lines = told("draw: lines", "a picture has at most 2000 lines, and its run 2000 events")
    refuses("four actors drawn", "", "draw", given=busy(0, 0, 0, 0))
    comes_to("a long run drawn", 4, "", lines, "draw", "--svg", given=busy(250, 250, 500))
    comes_to("a long run of equal actors drawn", 4, "", lines, "draw", given=busy(251, 251, 251, 251))


# ---- scripts that are changed


def cut():
    """An attack that ends too early, at each place."""
    told_so = (3, "", "inroot: script: not json")
    cuts = [run("replay", given=ATTACK.strip()[:length]) for length in range(len(ATTACK.strip()))]
    good = sum((it.status, it.out, it.err.partition("\n")[0]) == told_so for it in cuts)
    verdict(good == len(cuts) > 0, f"of {len(cuts)} beginnings of an attack {good} are told as no JSON")


def changed():
    for old, new, at, wanted, *entry in rows("changes"):
        lines = told(f"script: {at}", wanted, *(f"{at} at {it}" for it in entry), "...")
        comes_to(f"changed to {new}", 3, "", lines, "replay", given=ATTACK.replace(old, new, 1))
    few = told("book full", '"lines" is too small: each actor, or each worker of run, has one')
    comes_to("a line for two actors", 4, "", few, "replay", given=ATTACK.replace('"version":1', '"version":1,"lines":1', 1))
    other = '{"root":"/","calls":[{"op":"resolve","path":"a","as":"B"}]}'
    for version, count, calls in rows("calls"):
        script = f'{{"version":{version},"tree":[],"actors":[{{"root":"/","calls":[{calls}]}},{other}]}}'
        ran = run("replay", given=script)
        verdict(len(re.findall("^reply 0 ", ran.out, re.M)) == int(count), f"so many calls: {calls}", ran.out)


def events_of(told):
    return len(re.findall("^event ", told, re.M))


def books():
    walk = BASE.replace('"calls":[]', '"calls":[{"op":"resolve","path":"a/b/f"}]', 1)
    for script, count, events, replies, held in rows("books"):
        given = (walk if script == "walk" else ATTACK).replace('"version":1', f'"version":1,"lines":{count}', 1)
        ran = run("replay", given=given)
        end = f"{replies},{ENTRIES}{held}\n".replace(",", "\n")
        verdict(ran.status == 0 and events_of(ran.out) == int(events) and ran.out.endswith(end), f"{count} lines", ran.out)
    # A book of which the script says nothing has 1,000,000 lines: each root keeps one for its Close, and the steps take the
    # others.
    loops = ",".join(512 * ['{"op":"resolve","path":"loop"}'])
    actors = ",".join(17 * [f'{{"root":"/","calls":[{loops}]}}'])
    ran = run("replay", given=f'{{"version":1,"tree":[["link","/loop","loop"]],"actors":[{actors}]}}')
    held = len(re.findall("^held [0-9]* 1$", ran.out, re.M))
    verdict(ran.status == 0 and events_of(ran.out) == 999983 and held == 17 and
            re.search("^reply [0-9]* [0-9]* fault ENOSPC$", ran.out, re.M), "a book of 1,000,000 lines")


# ---- walks


def steps_of(told):
    return len(re.findall("^event [0-9]* actor 0 ", told, re.M))


def is_alike_alone(script, reply, steps, held):
    """Over the indexed tree by a replay, and over the plain one by an exploration, of which each step is a turn, and a walk
    without a step one turn, too."""
    ran = run("replay", given=script)
    turn = max(steps_of(ran.out), 1)
    rest = re.sub("^event .*\n", "", ran.out, flags=re.M)
    explored = (f"schedules 1\nstates {turn + 1}\nturns {turn}\noutcomes 1\noutcome 0 schedules 1 cuts 0 schedule -\n"
                f"reply 0 0 {reply}\nheld 0 {held}\n")
    return (ran.status == 0 and steps in ("-", str(steps_of(ran.out))) and
            rest == f"reply 0 0 {reply}\n{ENTRIES}held 0 {held}\n" and run("explore", given=script).out == explored)


def walks():
    for path, reply, steps, held, entry in rows("walks"):
        ran = run("replay", given=read(path))
        lines = ran.out.splitlines()
        verdict(ran.status == 0 and steps_of(ran.out) == int(steps) and f"reply 0 0 {reply}" in lines and
                f"held 0 {held}" in lines and f"\nrow {entry} " in ran.out, f"the walk of {path}: {reply}")
    alone = BASE.replace('"version":1', '"version":2', 1)
    for call, reply, steps, held in rows("alone"):
        script = alone.replace('"calls":[]', f'"calls":[{{"op":{call}}}]', 1)
        verdict(is_alike_alone(script, reply, steps, held), f"a walk alone: {call}")


# ---- what is seen on a terminal, which script(1) makes


def typed(command, *words):
    """What the program writes to a terminal, with these variables in its environment."""
    whole = f"env -u COLUMNS -u NO_COLOR TERM=xterm {' '.join(words)} {shlex.quote(PROGRAM)} {command}"
    told = started(["script", "-qec", whole, "/dev/null"], subprocess.DEVNULL)
    return told.out if told.status == 0 else ""


def answers_on_a_clean_line():
    """The answer never stands behind the progress, which is wiped off first."""
    began = time.monotonic()
    told = typed("explore --states 10000000 --cuts 4 <benches/searches/remove-two-mkdir-move.json")
    if "\rinroot: " not in told and time.monotonic() - began < 3:
        skip("progress on a terminal", "the search ended before any was told")
        return told.startswith("schedules ")
    before, _, answer = told.rpartition("\x1b[K")
    progress = r"inroot: [0-9]+ of at most 10000000 states, turn [0-9]+, [0-9]+ seconds\x1b"
    return re.search(progress, told) and answer.startswith("schedules ") and "schedules" not in before


def waits_for_a_script():
    """Without a script's file a terminal is told that it is read, and not with one."""
    waits = "inroot: waits for a script on this terminal, up to Control-D; to read a file, name it as the last argument"
    told = started(["script", "-qec", f"{shlex.quote(PROGRAM)} walk a/b/f", "/dev/null"], "\n").out.replace("\r", "")
    named = typed("walk a/b/f examples/base.json").replace("\r", "")
    return waits in told.split("\n") and "the script is empty" in told and named == "opened file 4 /a/b/f\n"


def on_a_terminal():
    """A picture has the terminal's width and colours."""
    if lacks("script", "what is seen on a terminal"):
        return
    verdict(waits_for_a_script(), "a script from a terminal")
    verdict(answers_on_a_clean_line(), "the answer on a terminal")
    moved_out = "    10 | {}open .. of /secret/b = dir 9     {} |                                   |"
    for name, line, *words in (
        ("a failed call on a terminal is yellow", "\x1b[33m  resolve a/b/.. = fault EAGAIN\x1b[0m"),
        ("what is opened outside is red on a terminal", moved_out.format("\x1b[31m", "\x1b[0m")),
        ("no colours", moved_out.format("", ""), "NO_COLOR=1"),
        ("the width of a terminal", "       | actor 0                 | actor 1                 |", "COLUMNS=60"),
        ("closes are said to be left out on a terminal", "closes are left out (--all shows them)"),
    ):
        told = typed("draw <examples/attacks/moved-out.json", *words)
        verdict(line in told.replace("\r", "").split("\n"), name, told)


# ---- a script of nearly as many bytes as may be, whose 512 calls only read


def large():
    """90 directories of 100 files, and of links from one to another."""
    tree = ['["dir","/c"]']
    for own in range(90):
        tree += [f'["dir","/c/{own}"]', f'["link","/c/{own}/up","../{(own * 7 + 3) % 90}"]']
        tree += [f'["file","/c/{own}/{it:080}"]' for it in range(100)]
    calls = []
    for job in range(512):
        path = f"{job % 90}/up/../{job % 89}/up" + (f"/{job % 101:080}" if job % 4 == 1 else "")
        op = ("resolve", "resolve", "read_link", "resolve_nofollow")[job % 4]
        calls.append(f'{{"op":"{op}","path":"{path}"}}')
    actor = f'{{"root":"/c","calls":[{",".join(calls)}]}}'
    return f'{{"version":1,"lines":100000,"tree":[{",".join(tree)}],"actors":[{actor}]}}'


def large_jobs():
    """Any number of workers gives the replies of a replay."""
    script = large()
    replies = re.findall("^reply 0 .*\n", run("replay", given=script).out, re.M)
    verdict(len(script) > 900000, "a large script of jobs")
    verdict(len(replies) == 512, "each job of a large script is replayed")
    for workers in "1248":
        lines = run("run", "--workers", workers, given=script).out.splitlines(True)
        verdict(lines[:-1] == replies, f"the jobs of a large script, {workers} workers")


def judge():
    for part in (refused, as_long_as_may_be, long_runs_drawn, cut, changed, books, walks, on_a_terminal, large_jobs):
        part()
