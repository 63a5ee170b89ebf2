"""Each request for memory, each thread, each read and each write of the program."""
import collections
import glob
import re

from frame import PROGRAM, read, verdict
from frame import run as run_plainly
from refusals_parts.machine import (
    FOREVER, NO_MEMORY, PART, WANTS, each_refusal, ends, ends_first, is_quiet, run, seen, write)

BASE, MOVED_OUT, JOBS = "examples/base.json", "examples/attacks/moved-out.json", "examples/jobs.json"
# What walk prints of abs/f.
ANSWER = "opened file 4 /a/b/f\n"
count = {"refused": 0, "answered": 0}


def counted(what):
    """Prints how many were refused since the last time."""
    answered = f", {count['answered']} of them answered by a call" if count["answered"] else ""
    print(f"refusals: {count['refused']} requests for memory of ./inroot {what} refused{answered}")
    count.update(refused=0, answered=0)


def refuse(script, *words, rule=None):
    """Refuses the requests for memory of a command line in turn. Each such run answers as with ample memory, where a cache
    goes on without it; or it ends by the error of want and writes nothing; or, where a call met the want, it ends as the
    rule of its command says that it may."""
    name = f"inroot {' '.join(words)}"
    ample = run(script, *words)
    for lasts in WANTS:
        told = answered = 0
        for number, ran in each_refusal([PROGRAM, *words], script, lasts):
            count["refused"] += bool(ran.met)
            if ends(ran, *NO_MEMORY):
                told += 1
            elif ends(ran, *ample[:3]) or ends_first(ran, *ample[:3]):
                pass
            elif ran.live == 0 and rule and rule(ran, ample, lasts):
                answered += 1
            else:
                verdict(False, f"{name}: request {number} refused", seen(ran))
                break
        count["answered"] += answered
        verdict(told > 0 and (rule is None or lasts or answered > 0), f"{name}: no refusal was told")


# ---- how a run may end in which a call met the want


FROM, TO, ROOT = "opened dir 2 /c/a", "opened dir 9 /secret", "opened dir 2 /a"
# What came of the calls of moved-out.json by the call that met the want: actor 0 asks for the parent of b. Actor 1 opens /c/a
# and /secret, and moves b from the one to the other before. Then what each of them holds.
ENDS = {
    "0 0": ("fault ENOMEM", FROM, TO, "stepped done", 1, 3),
    "1 0": (ROOT, "fault ENOMEM", TO, "fault EBADF", 2, 2),
    "1 1": (ROOT, FROM, "fault ENOMEM", "fault EBADF", 2, 2),
    "1 2": (ROOT, FROM, TO, "fault ENOMEM", 2, 3),
}
ROWS = ["0 c 1 dir", "0 secret 9 dir", "1 a 2 dir", "1 abs 5 link", "1 dang 8 link", "1 loop 7 link", "1 up 6 link"]


def wanting_call(ran):
    """The call that met the want, where there is one, by the lines of a report."""
    calls = re.findall("^reply ([0-9]+ [0-9]+) fault ENOMEM$", ran.out, re.M)
    return calls[0] if is_quiet(ran) and len(calls) == 1 else None


def events_are_held(out):
    """Whether the events of a report are numbered, and each actor holds its root and what its events opened and didn't
    close."""
    events = re.findall("^event ([0-9]+) actor ([0-9]+) ([^ ]+).* = (.*)$", out, re.M)
    held = re.findall("^held ([0-9]+) ([0-9]+)$", out, re.M)
    opened = collections.Counter(actor for actor, _ in held)
    for _, actor, step, answer in events:
        opened[actor] += answer.startswith("opened ") - (step == "close" and answer == "done")
    numbers = [int(number) for number, *_ in events]
    return held and numbers == list(range(len(numbers))) and held == [(it, str(opened[it])) for it in opened]


def replays_a_want(ran, *_):
    """Whether it is the report on a run of moved-out.json in which one call met the want."""
    call = wanting_call(ran)
    if call not in ENDS or not events_are_held(ran.out):
        return False
    race, start, to, moving, *held = ENDS[call]
    moved = ["3 f 4 file", "9 b 3 dir"] if moving == "stepped done" else ["2 b 3 dir", "3 f 4 file"]
    wanted = [f"reply 0 0 {race}", f"reply 1 0 {start}", f"reply 1 1 {to}", f"reply 1 2 {moving}",
              *(f"row {it}" for it in ROWS + moved + ["9 key 10 file"]), *(f"held {it} {held[it]}" for it in (0, 1)), ""]
    return re.sub("^event .*\n", "", ran.out, flags=re.M) == "\n".join(wanted)


def draws_a_want(ran, *_):
    """The same of its picture, which has neither entries nor handles."""
    heads = [f"actor 0 below /c\n  resolve a/b/.. = {race}\nactor 1 below /\n  resolve c/a = {start}\n"
             f"  resolve secret = {to}\n  rename b in call 0 to b in call 1 = {moving}"
             for race, start, to, moving, *_ in ENDS.values()]
    return is_quiet(ran) and ran.out.partition("\n\n")[0] in heads


def replays_some_want(ran, ample, _):
    """Whether it is a report in which one call met the want, whatever the script: each actor made as many calls as with ample
    memory."""
    own, calls = (re.findall("^reply [0-9]* [0-9]* ", it.out, re.M) for it in (ran, ample))
    return wanting_call(ran) and events_are_held(ran.out) and own == calls


def plays_a_want(ran, *_):
    """Whether a run that the page plays shows the call that met the want, as replay does."""
    return is_quiet(ran) and "fault ENOMEM" in ran.out


def serves_a_want(ran, _, lasts):
    """Whether it is what jobs.json comes to where jobs met the want, and else each job is answered as with ample memory: its
    own events, the release of what it opened among them, are 7, 10 and 1 by the order of steps. The service closes."""
    answers = (("opened file 4 /a/b/f", 7), ("opened file 4 /a/b/f", 10), ("fault ENOENT", 1))
    told = re.fullmatch("reply 0 0 (.*)\nreply 0 1 (.*)\nreply 0 2 (.*)\nclosed ([0-9]+)\n", ran.out)
    if not is_quiet(ran) or not told:
        return False
    served = [events if got == answer else 0 for got, (answer, events) in zip(told.groups(), answers)]
    wants = [got for got, events in zip(told.groups(), served) if not events]
    return set(wants) == {"fault ENOMEM"} and (lasts or len(wants) == 1) and sum(served) <= int(told[4]) <= 18


# ---- requests for memory


def walks():
    for words in ("walk a/b/f", "walk --beneath abs/f", "walk up/../../dang", "walk -x", "--help"):
        refuse(BASE, *words.split())
    refuse("checks/faults.c", "walk", "a")
    counted("walk")


def replays_and_pictures():
    refuse(MOVED_OUT, "replay", rule=replays_a_want)
    refuse(MOVED_OUT, "replay", "--schedule", "1*7,0*2,2")
    counted("replay")
    refuse(MOVED_OUT, "draw", rule=draws_a_want)
    counted("draw")
    if PART == "long":
        for script in sorted(glob.glob("examples/attacks/*.json")):
            refuse(script, "replay", rule=replays_some_want)
        counted("replay of all attacks")


def searches(search, parts):
    """The two parts of a small search, and the merge of them. No call answers a want here: the program ends by its error, and
    writes nothing. The same holds for a page, but for the runs that it plays."""
    whole = re.sub("^states .*\n", "", run(search, "explore").out, flags=re.M)
    ran = run(parts, "explore", "--merge")
    verdict(ends(ran, 0, whole, ""), "inroot explore --merge of two parts", seen(ran))
    refuse(search, "explore", "--part", "--begin", "0")
    refuse(search, "explore", "--html", rule=plays_a_want)
    refuse(parts, "explore", "--merge")
    counted("explore of parts, and as a page")


def searches_of_attacks():
    """Each 97th request of searches in which the same turns come again in many worlds: the program ends by the error of want,
    or prints the same."""
    for script in ("examples/attacks/removed-underfoot.json", MOVED_OUT):
        ample = run(script, "explore")
        holds = ends(ample, 0, ample.out, "") and ample.requests > 970
        verdict(holds, "inroot explore", f"{ample.requests} requests, {seen(ample)}")
        for number in range(1, ample.requests + 1, 97):
            ran = run(script, "explore", MEMORY=number)
            holds = (ends(ran, *ample[:3]) or ends(ran, *NO_MEMORY)) and ran.met == 1
            verdict(holds, f"inroot explore: request {number} refused", seen(ran))
            count["refused"] += ran.met
    counted("explore of attacks")


def jobs():
    for workers in "12":
        refuse(JOBS, "run", "--workers", workers, rule=serves_a_want)
    counted("run")
    ample = run(JOBS, "run", "--workers", "2")
    # Where no thread can be made, what it was for is done all the same.
    for number in (1, 2, 3):
        for last in (0, FOREVER):
            ran = run(JOBS, "run", "--workers", "4", THREAD=number, LAST=last)
            holds = ends(ran, 0, ample.out, "") and ran.met > 0
            verdict(holds, f"inroot run --workers 4: thread {number} isn't made", seen(ran))


def answers_all(ran):
    lines = ran.out.splitlines()
    if ran.status == 4:
        return ran[:3] == NO_MEMORY
    wants = sum(re.fullmatch("reply 0 [0-9]* fault ENOMEM", it) is not None for it in lines)
    return (is_quiet(ran) and len(lines) == 513 and all(it.startswith("reply 0 ") for it in lines[:-1]) and wants <= 1 and
            re.match("closed [0-9]", lines[-1]))


def racing_jobs():
    """By eight workers: whatever is refused, each job is answered, and want is the only error."""
    calls = []
    for job in range(128):
        calls += [f'{{"op":"mkdir_all","path":"a/b/c{job % 7}"}}', '{"op":"remove_all","path":"a"}',
                  f'{{"op":"rename","from":"a/b","to":"a/d{job % 5}"}}', f'{{"op":"resolve","path":"a/b/c{job % 7}/.."}}']
    actor = f'{{"root":"/","calls":[{",".join(calls)}]}}'
    race = write("race", f'{{"version":1,"tree":[["dir","/a"],["dir","/a/b"]],"actors":[{actor}]}}')
    ample = run(race, "run", "--workers", "8")
    verdict(answers_all(ample) and ample.status == 0, "inroot run of jobs that race", seen(ample))
    between = 400 if PART == "gate" else 40
    for number in range(between, ample.requests + 1, between):
        ran = run(race, "run", "--workers", "8", MEMORY=number)
        verdict(answers_all(ran) and ran.live == 0, f"inroot run of jobs that race: request {number} refused", seen(ran))
        count["refused"] += ran.met
    counted("run of jobs that race")


# ---- reads and writes


def begins(ran, wanted, text):
    """Whether the run ended so, and has written a beginning of the text."""
    return text.startswith(ran.out) and ends(ran, wanted[0], ran.out, wanted[2])


def fault_each(fault, kind, wanted, script, *words, behind="", text=""):
    """Makes each read, or each write, fail in turn. Where the first write isn't the one that fails, the first lines of
    `behind`, or a beginning of `text`, may be written."""
    name, number, ran = f"inroot {' '.join(words)}: FAULT_{fault}", 1, run(script, *words, KIND=kind, **{fault: 1})
    verdict(ran.met > 0, f"{name}: nothing failed")
    while ran.met > 0 or ran.live < 0:
        holds = ends(ran, *wanted) or number > 1 and (ends_first(ran, *wanted[:2], behind) or begins(ran, wanted, text))
        verdict(holds, f"{name}={number} FAULT_KIND={kind}", seen(ran))
        # The run did not come to its end.
        if ran.live < 0:
            return
        number += 1
        ran = run(script, *words, KIND=kind, **{fault: number})


def fault_all(printed, script, *words, text=""):
    """Each of them in each way: one that fails ends the run, and after one that is interrupted or short it goes on."""
    fault_each("READ", "fail", (4, "", "inroot: read failed\n"), script, *words)
    fault_each("WRITE", "fail", (4, "", "inroot: write failed\n"), script, *words, text=text)
    for fault in ("READ", "WRITE"):
        for kind in ("interrupt", "short"):
            fault_each(fault, kind, (0, printed, ""), script, *words)


def each_of_a_byte(printed, script, *words):
    """Each read and each write of one byte; and a reader whose every read is interrupted."""
    name = f"inroot {' '.join(words)}"
    for fault in ("READ", "WRITE"):
        ran = run(script, *words, LAST=FOREVER, KIND="short", **{fault: 1})
        verdict(ends(ran, 0, printed, ""), f"{name}: one byte a {fault.lower()}", seen(ran))
    ran = run(script, *words, LAST=FOREVER, KIND="interrupt", READ=1)
    holds = ends(ran, 4, "", "inroot: read failed\n") and ran.reads == 2097152
    verdict(holds, f"{name}: every read interrupted", f"{ran.reads} reads, {seen(ran)}")


def reads_and_writes(search, parts):
    """What the jobs print is the same for any number of workers."""
    walk, replay = (BASE, "walk", "abs/f"), (MOVED_OUT, "replay")
    one, two = ((JOBS, "run", "--workers", it) for it in "12")
    report, replies = run(*replay).out, run(*one).out
    for printed, row in ((ANSWER, walk), (report, replay), (replies, one), (replies, two)):
        fault_all(printed, *row)
    for script, words in ((MOVED_OUT, "draw --svg"), (search, "explore --html"), (search, "explore --part --begin 0")):
        fault_all(run(script, *words.split()).out, script, *words.split())
    # The text of a survey is written piece by piece.
    merged = run(parts, "explore", "--merge").out
    fault_all(merged, parts, "explore", "--merge", text=merged)
    # A fault whose error can't be written keeps its status.
    fault_each("WRITE", "fail", (3, "", ""), "/dev/null", "walk", "abs/f", behind=run("/dev/null", "walk", "abs/f").err)
    for printed, row in ((ANSWER, walk), (report, replay), (replies, two)):
        each_of_a_byte(printed, *row)


def under_valgrind():
    for script, *words in ((BASE, "walk", "abs/f"), (MOVED_OUT, "replay"), (JOBS, "run", "--workers", "2")):
        ran = run(script, *words)
        holds = ends(ran, 0, run_plainly(*words, given=read(script)).out, "")
        verdict(holds, f"inroot {words[0]} under valgrind", seen(ran))


def judge():
    search = write("search", '{"version":1,"tree":[["dir","/a"]],"actors":[{"root":"/","calls":[{"op":"resolve","path":"a"}]},'
                   '{"root":"/","calls":[{"op":"step","step":"remove_dir","on":"root","name":"a"}]}]}')
    parts = write("parts", "".join(run(search, "explore", "--part", "--begin", actor).out for actor in "01"))
    walks()
    replays_and_pictures()
    searches(search, parts)
    searches_of_attacks()
    jobs()
    racing_jobs()
    reads_and_writes(search, parts)
