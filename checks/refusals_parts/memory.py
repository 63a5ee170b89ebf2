"""Scripts that take much memory, and how much the program takes of them."""
import fnmatch
import os
import subprocess

from frame import text, verdict
from refusals_parts.machine import PART, ends, run, seen, write

# A name of 250 bytes begins so, mostly of DEL, which is printed as \x7f.
LONG = 245 * "\x7f"
LIST = '{"op":"step","step":"list","on":"root"}'


class Most:
    """Of a command, the most memory that a script took."""

    def __init__(self, command):
        self.command, self.peak, self.script = command, 0, ""

    def is_over(self, limit, name, peak):
        if peak > self.peak:
            self.peak, self.script = peak, name
        if PART != "gate":
            print(f"refusals: inroot {self.command}: {name}: {peak} KB")
        return peak > limit

    def tell(self):
        print(f"refusals: ./inroot {self.command} took at most {self.peak} KB, of a script with {self.script}")


def made(name, script):
    """Such a script, which has 1,048,576 bytes at most."""
    path = write("script", script)
    verdict(os.path.getsize(path) <= 1048576, f"{name}: the script is too long")
    return path


# ---- walks, within 200 MB


def filled(unit):
    """A key of it has a list of such values."""
    begin = '{"version":1,"tree":[["dir","/c"]],"actors":[{"root":"/c"}],"x":['
    return begin + (1048576 - len(begin) - 3) // (len(unit) + 1) * f"{unit}," + "0]}"


def with_entries(*entries):
    return '{"version":1,"actors":[{"root":"/c"}],"tree":[["dir","/c"],' + ",".join(entries) + "]}"


def chain(top):
    """40 links, each of whose texts passes through a directory and back 816 times."""
    return [f'["link","{top}/k{it}","{816 * "x/../"}{f"k{it + 1}" if it < 40 else "x"}"]' for it in range(1, 41)]


def takes_little(most, name, wanted, script, path):
    ran = run(made(name, script), "walk", path, PLAIN=1)
    over = most.is_over(204800, name, ran.peak)
    verdict(ends(ran, 0, wanted + "\n", "") and not over, name, f"{ran.peak} KB, {seen(ran)}")


def walks():
    most = Most("walk")
    for unit in ("0", '""', "[]", "[0]", "[[0]]", '{"":0}', 62 * '{"":' + "0" + 62 * "}"):
        takes_little(most, f"a list of {unit[:12]}", "opened dir 1 /", filled(unit), ".")
    tree = with_entries(*(f'["dir","/c{it * "/a"}"]' for it in range(1, 1001)))
    takes_little(most, "a deep tree", f"opened dir 401 {400 * '/a'}", tree, 1000 * "a/" + 600 * "../")
    tree = with_entries(*(f'["dir","/c/{it:080}"]' for it in range(1, 10000)))
    takes_little(most, "10,000 entries", f"opened dir 10000 /{9999:080}", tree, f"{9999:080}")
    takes_little(most, "40 long links", "opened dir 2 /x", with_entries('["dir","/c/x"]', *chain("/c")), "k1")
    most.tell()


# ---- other commands, within 900 MB


def repeated(entries, root, call, actors, times):
    """So many actors at a root, each of which makes a call so often."""
    actor = f'{{"root":"{root}","calls":[{",".join(times * [call])}]}}'
    return f'{{"version":1,"tree":[{",".join(entries)}],"actors":[{",".join(actors * [actor])}]}}'


def made_and_listed(trees, files, lists):
    """Its first actor makes so many trees of 2,046 directories, each in the one before; then others list a directory of files
    with long names."""
    tree = ",".join(['["dir","/d"]'] + [f'["file","/d/{LONG}{it:05}"]' for it in range(files)])
    calls = [f'{{"op":"mkdir_all","path":"{it:03}{2045 * "/a"}"}}' for it in range(trees)]
    actors = [("/", calls)] + [("/d", min(400, lists - it) * [LIST]) for it in range(0, lists, 400)]
    told = ",".join(f'{{"root":"{root}","calls":[{",".join(calls)}]}}' for root, calls in actors)
    return f'{{"version":1,"tree":[{tree}],"actors":[{told}]}}'


def ends_within(most, name, last, script, *words):
    """A command over the script ends well, with a last line like that one. What is printed may be hundreds of megabytes."""
    with subprocess.Popen(["tail", "-n", "1"], stdin=subprocess.PIPE, stdout=subprocess.PIPE) as tail:
        ran = run(made(name, script), *words, stdout=tail.stdin, PLAIN=1)
        line = text(tail.communicate()[0]).rstrip("\n")
    over = most.is_over(921600, name, ran.peak)
    holds = (ran.status, ran.err, ran.live) == (0, "", 0) and fnmatch.fnmatchcase(line, last) and not over
    told = f"status {ran.status}, told '{ran.err}', at the end '{line[:200]}', {ran.peak} KB"
    verdict(holds, f"inroot {' '.join(words)}: {name}", told)


def long_replays(most):
    link, path = f'["link","/k","{4090 * chr(127)}"]', '{{"op":"{}","path":"{}"}}'
    files = [f'["file","/{it:085}"]' for it in range(9999)]
    deep = [f'["dir","{it * "/a"}"]' for it in range(1, 8)] + ['["link","/k","a/a/a/a/a/a/a/../../a/a/../a"]']
    few = ['["dir","/c"]', '["dir","/c/a"]', '["file","/c/a/b"]']
    for name, last, script in (
        ("trees made", "held 1 1", made_and_listed(250, 1, 1)),
        ("long names listed", "held 1 1", made_and_listed(0, 450, 300)),
        ("long texts read", "held 63 1", repeated([link], "/", path.format("read_link", "k"), 64, 128)),
        ("10,000 entries listed", "held 38 1", repeated(files, "/", LIST, 39, 1)),
        ("40 long links", "held 63 1", repeated(chain("") + ['["dir","/x"]'], "/", path.format("resolve", "k1"), 64, 10)),
        ("1,000,000 events", "held 63 1", repeated(deep, "/", path.format("resolve", "k"), 64, 512)),
        ("32,000 objects kept", "held 63 501", repeated(few, "/c", path.format("resolve", "a/b"), 64, 500)),
    ):
        ends_within(most, name, last, script, "replay")


def judge():
    walks()
    # The names and texts of a run's answers are kept in its log and in its replies, and both are printed, each byte as four.
    most = Most("replay")
    ends_within(most, "trees made, and long names listed", "held 1 1", made_and_listed(160, 400, 330), "replay")
    if PART == "long":
        long_replays(most)
    most.tell()
    most = Most("draw")
    files = [f'["file","/{LONG}{it:05}"]' for it in range(400)]
    ends_within(most, "long names listed", "</svg>", repeated(files, "/", LIST, 2, 165), "draw", "--svg")
    most.tell()
    most = Most("run")
    for workers in "18":
        ends_within(most, "trees made", "closed 9999[0-9][0-9]", made_and_listed(250, 0, 0), "run", "--workers", workers)
    most.tell()
