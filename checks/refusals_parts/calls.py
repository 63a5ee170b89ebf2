"""Each request for memory of the calls that benches/refusals makes, on both trees, of two sessions of one service, and of the
copies of a world that benches/copies makes."""
import collections
import re

import frame
from frame import read, started, verdict
from refusals_parts.machine import WANTS, each_refusal, is_quiet, run_under, seen

PROGRAMS, count = {}, collections.Counter()
# The request that a tree's scenarios begin with. What is refused while the tree is built is the same in each: it is tried
# in the first one alone.
BEGIN = {"plain": 1, "indexed": 1}


def built(name):
    """The path of that program of benches, where it prints what it is to print with nothing refused."""
    made = started(["benches/build", name])
    if made.status:
        verdict(False, f"benches/{name} is not built", made.err[-800:])
        frame.end()
    return made.out.strip()


class Scenario:
    """A scenario on one of the trees, and which ends a run of it may have: outside of the call, absorbed, or refused."""

    def __init__(self, tree, name, lasts):
        self.tree, self.name, self.lasts, self.first = tree, name, lasts, 0
        self.ample = run_under([PROGRAMS["refusals"], tree, name])
        self.head = f"{tree} {name}\n"
        self.entries = re.findall("^[-+] .*$", self.ample.out, re.M)

    def tells_of_want(self, out):
        """Whether what is printed is that the call met the want: its reply, the caller's handles from before the call, and then
        nothing but a count of events and entries of those that the whole call changes. The entries may be missing."""
        told = re.fullmatch(re.escape(self.head) + "ready\n(?:other done\n)?fault ENOMEM\nheld 1\n(.*)", out, re.S)
        return told and all(it in ("", *self.entries) or re.match("events [0-9]", it) for it in told[1].split("\n"))

    def is_free(self, changed):
        """Whether a want may change nothing. The indexed tree goes on without a note in its cache; the other actor's step is
        made again, and a service opened; and before the call the words of the command line are taken without one of the
        requests that are made for them."""
        return changed or self.tree == "indexed" or self.first == 0

    def end_of(self, ran):
        """Which of the ends it is, if any."""
        without = ran.out.replace("other fault ENOMEM\n", "")
        if ran.status == 4 and ran.err == "refusals: ENOMEM\n":
            # Before the call, or in the list of entries after it.
            if without in ("", self.head, re.sub("^[-+] .*\n", "", self.ample.out, flags=re.M)):
                return "outside"
            return "refused" if self.lasts and self.tells_of_want(without) else None
        if not is_quiet(ran):
            return None
        if without == self.ample.out:
            return "absorbed" if self.is_free(without != ran.out) else None
        return "refused" if self.tells_of_want(without) else None

    def refuse_each(self, start=1):
        """Refuses its requests one after another, from the one of that number on."""
        name, ends = f"{self.tree} {self.name}", collections.Counter()
        if not is_quiet(self.ample) or self.ample.live or self.ample.met:
            verdict(False, f"{name}: it did not end well with ample memory")
            return
        for number, ran in each_refusal([PROGRAMS["refusals"], self.tree, self.name], lasts=self.lasts, start=start):
            kind = "none" if ran.met == 0 and ran.out == self.ample.out else self.end_of(ran)
            if ran.live != 0 or kind is None:
                verdict(False, f"{name}: request {number} refused", seen(ran))
                return
            ends[kind] += 1
            if kind == "refused":
                self.first = self.first or number
        count.update(all=number - start, met=ends["refused"])
        verdict(ends["none"] == 1 and ends["refused"] > 0, f"{name}: no refusal was met by the call")


# ---- two sessions of one service


class Wrong(Exception):
    """The sessions don't answer as they may."""


class Sessions(Scenario):
    """The calls are a Rename of a file by session 1, its Resolve of the new name, and session 0's of the old one. How many
    events each makes follows from the order of steps: an Open for each name and a Close for each but the last, NameBelow at
    the end of what is found, a rename's own step and two Closes after its two walks."""

    def call(self, session, wanted, events):
        """Takes the reply, which is the wanted one or that the call met the want. Where memory is gone for good each later
        call meets it too, else one at most."""
        line = next(self.lines, "")
        if line == f"session {session} {wanted}" and not (self.wants and self.lasts):
            self.least[session] += events
        elif line == f"session {session} fault ENOMEM" and (self.lasts or not self.wants):
            self.wants += 1
        else:
            raise Wrong
        self.most[session] += events
        return line.endswith(wanted)

    def look_up(self, session, found, names):
        """Resolves a path of so many names. Gives the session where it opened something."""
        is_so = self.call(session, found or "fault ENOENT", 2 * names - (not found))
        return [session] if found and is_so else []

    def answers(self):
        """Whether the replies are those that the tree then gives, but for a call that met the want, and the service closed
        with the events that were made and each session has its root alone. The entries that are compared take memory."""
        is_moved = self.call(1, "done", 15)
        opened = self.look_up(1, is_moved and "opened file 4 /c/a/b/g", 4)
        opened += self.look_up(0, not is_moved and "opened file 4 /a/b/f", 3)
        for session in opened:
            if next(self.lines, "") != f"session {session} release done":
                raise Wrong
            self.least[session] += 1
            self.most[session] += 1
        closed = "closed ([0-9]+)\nsession 0 held 1 events ([0-9]+)\nsession 1 held 1 events ([0-9]+)\n(.*)"
        told = re.fullmatch(closed, "\n".join(self.lines), re.S)
        every, *own = map(int, told.groups()[:3]) if told else (-1, 0, 0)
        changed = "- 3 f 4\n+ 3 g 4\n" if is_moved and self.status == 0 else ""
        return every == sum(own) and all(self.least[it] <= own[it] <= self.most[it] for it in (0, 1)) and told[4] == changed

    def end_of(self, ran):
        if not is_quiet(ran) and (ran.status, ran.err) != (4, "refusals: ENOMEM\n"):
            return None
        # The tree came back without a handle.
        reopened = "open fault ENOMEM\nsession 0 held 0\nsession 1 held 0\n"
        told = re.fullmatch(f"(?:{self.head})?({reopened})?(?:ready\n(.*))?", ran.out, re.S)
        if not told or told[2] is None:
            return "outside" if told and ran.status == 4 else None
        self.lines, self.status, self.wants = iter(told[2].split("\n")), ran.status, 0
        self.least, self.most = [0, 0], [0, 0]
        try:
            if not self.answers():
                return None
        except Wrong:
            return None
        if self.wants:
            return "refused"
        if ran.status == 4:
            return "outside"
        return "absorbed" if self.is_free(told[1]) else None


# ---- a world that is copied before each of its turns


def copies():
    """Where a copy was refused, nothing is left of it, and the world goes on as if it had not been made."""
    words = [built("copies")]
    ample = run_under(words)
    holds = is_quiet(ample) and ample.live == 0 and ample.out == read("benches/copies/stdout")
    verdict(holds, "benches/copies does not print what it is to print")
    for number, ran in each_refusal(words):
        is_refused = is_quiet(ran) and ran.out.replace("refused\n", "", 1) == ample.out != ran.out
        is_outside = "\nrefused\n" not in ran.out if is_quiet(ran) else ran.status == 4 and ran.err.startswith("copies: ")
        if ran.live != 0 or not (is_refused or is_outside):
            verdict(False, f"copies: request {number} refused", seen(ran))
            break
        count.update(all=bool(ran.met), met=is_refused)
    verdict(ran.met == 0 and ran.out == ample.out and count["met"] > 0, "copies: no refusal was met by a copy")
    tell("a world and its copies", "a copy")


# ---- all of them


def tell(what, whom="a call"):
    print(f"refusals: {count['all']} requests for memory of {what} refused, {count['met']} of them met by {whom}")
    count.clear()


def prepare():
    """Nothing else is looked at where the calls don't print what they are to print."""
    PROGRAMS["refusals"] = built("refusals")
    ran = started([PROGRAMS["refusals"]])
    verdict(ran.status == 0, "the calls", ran.err[-800:])
    verdict(ran.out == read("benches/refusals/stdout"), "benches/refusals does not print what it is to print")
    if frame.failed:
        frame.end()


def judge():
    prepare()
    names = re.findall("^plain (?!sessions$)(.*)$", read("benches/refusals/stdout"), re.M)
    for tree in BEGIN:
        for name in names:
            for lasts in WANTS:
                own = Scenario(tree, name, lasts)
                own.refuse_each(BEGIN[tree])
            if BEGIN[tree] == 1 and own.first:
                BEGIN[tree] = own.first
    tell("calls on a tree")
    for tree in BEGIN:
        for lasts in WANTS:
            Sessions(tree, "sessions", lasts).refuse_each()
    tell("two sessions")
    copies()


def under_valgrind():
    ran = run_under([PROGRAMS["refusals"]])
    verdict(is_quiet(ran) and ran.live == 0, "the calls under valgrind", seen(ran))
    for name in ("walk_link", "walk_parent_raced", "remove_all_raced", "mkdir_all_booked", "rename"):
        Scenario("plain", name, False).refuse_each(BEGIN["plain"])
    print(f"refusals: {count['all']} requests for memory of calls on a tree refused under valgrind")
