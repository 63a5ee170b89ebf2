"""The attacks of examples/attacks: what replay, explore and draw come to over each, and that these agree."""
import glob
import os
import re

from frame import read, run, skip, started, verdict
from program_parts.cases import rows

ATTACKS = sorted(glob.glob("examples/attacks/*.json"))
CONDITIONS = ("reply 0 0 fault", "reply 0 0 fault EAGAIN", "reply 0 0 opened", "row 1", "held 1 3")


def replays_to(script):
    return run("replay", given=read(script))[:2] == (0, read(script[:-5] + ".out"))


def lines(pattern, text):
    """What the pattern's group is in each line that it matches."""
    return re.findall(f"^{pattern}$", text, re.M)


# ---- the steps of an attack over each tree


def is_alike_in_all_trees(script, rows):
    """The steps of the replay are answered alike by the plain tree and by the indexed ones, and leave them the same."""
    said = read(script)
    steps = lines(r"event \d+ actor (.*)", run("replay", given=said).out)
    grants = [f"{actor} grant {root} = handle {actor}" for actor, root in enumerate(re.findall(r'"root":"([^"]*)"', said))]
    wanted = ["base: an attack", *grants, *steps]
    told = started([rows], "".join(it.partition(" = ")[0] + "\n" for it in wanted)).out.splitlines()
    return steps and told[:-1] == wanted and re.fullmatch("nodes .*, the same in all", told[-1])


def over_each_tree():
    """The trees also answer alike in an attack on a directory that is made after the beginning, or never. crates/compare_trees
    compares them: rt ci builds it, and it is no part of the program."""
    rows = os.environ.get("INROOT_ROWS") or "crates/compare_trees/out/compare_trees"
    if not os.environ.get("INROOT_ROWS") and not os.access(rows, os.X_OK):
        skip("the steps of the attacks over each tree", f"there is no {rows} here: rt ci builds it")
        return
    for script in ATTACKS + ["checks/cases/made-and-removed.json", "checks/cases/never-made.json"]:
        # Its tree has an entry more than the others.
        if script != "examples/attacks/removed-underfoot.json":
            verdict(is_alike_in_all_trees(script, rows), f"over each tree: {script}")


# ---- what explore finds


def numbers_of(script):
    whole, of_actor = run("explore", given=script).out, run("explore", "--actor", "0", given=script).out
    return lines("(?:schedules|states|turns|outcomes) (.*)", whole) + lines(r"outcome \d+ schedules (\d+) .*", of_actor)


def outcomes_of(script):
    """Each outcome: how many schedules lead to it, one of them, its first line without its number, and the others."""
    told = run("explore", given=script).out
    return re.findall(r"^outcome \d+ (schedules (\d+) .* (\S+)\n)((?:(?!outcome ).*\n)*)", told, re.M)


def replayed(script, schedule):
    return run("replay", "--schedule", schedule, given=script).out


def outcomes_replayed(script):
    """Each outcome is what a replay of its schedule comes to."""
    found = outcomes_of(script)
    ends = [(lines("((?:reply|held) .*)", replayed(script, it[2])), lines("((?:reply|held) .*)", it[3])) for it in found]
    return found and all(got == wanted for got, wanted in ends)


def takes_by_replay(script, condition):
    """The outcomes that a condition takes are those whose schedule, replayed, prints its line, and no others; and so many
    schedules count as lead to these."""
    found = outcomes_of(script)
    taken = [it for it in found if re.search(f"^{condition}( |$)", replayed(script, it[2]), re.M)]
    few, all_of = (sum(int(it[1]) for it in some) for some in (taken, found))
    ran = run("explore", "--when", condition, given=script)
    rest = re.sub("^outcome [0-9]* ", "", ran.out.partition("\noutcomes ")[2].partition("\n")[2], flags=re.M)
    return (ran.status == int(few == 0) and all_of > 0 and lines("schedules (.*)", ran.out)[:1] == [str(few)] and
            rest == "".join(it[0] + it[3] for it in taken) + f"when {condition} = {few} of {all_of}\n")


def explored():
    for attack, *numbers in (it[0].split() for it in rows("numbers")):
        got = numbers_of(read(f"examples/attacks/{attack}.json"))
        verdict(got == numbers, f"schedules of {attack}", " ".join(got))
    secret = ["--never", "reply 0 0 opened file 10", "--never", "reply 0 0 opened dir 9"]
    for path in ATTACKS:
        script = read(path)
        verdict(outcomes_replayed(script), f"explored: {path}")
        verdict(run("explore", "--actor", "0", *secret, given=script).status == 0, f"the secret in {path}")
        for condition in CONDITIONS:
            verdict(takes_by_replay(script, condition), f"taken by '{condition}': {path}")
        # Of the attacks only one lets the call change what is outside of its root.
        wanted = int(path == "examples/attacks/made-then-moved-out.json")
        status = run("explore", "--outside", "--always", "outside 0 0", given=script).status
        verdict(status == wanted, f"acts within its root: {path}", f"status {status}")


# ---- pictures


def columns_of(drawing):
    """What each actor's column has, with its rows joined."""
    rows = [line[:-2].split(" | ")[1:] for line in drawing.partition("\n\n")[2].splitlines()[1:]]
    return ["".join(cell.rstrip() for cell in column) for column in zip(*rows)]


def fits_and_is_whole(path, width):
    """No row is wider than that, and the rows have all that a wide picture has."""
    narrow, wide = (run("draw", "--color", "never", "--width", str(it), given=read(path)).out for it in (width, 10000))
    return max(map(len, narrow.splitlines())) <= width and columns_of(narrow) == columns_of(wide) != []


def drawn():
    script, picture = read("examples/attacks/moved-out.json"), read("examples/attacks/moved-out.txt")
    verdict(run("draw", given=script)[:2] == (0, picture), "a picture as text")
    for path in ATTACKS:
        attack = os.path.basename(path)[:-5]
        wanted = (0, read(f"docs/attacks/{attack}.svg"))
        verdict(run("draw", "--svg", given=read(path))[:2] == wanted, f"a picture as SVG of {attack}")
    for path in ATTACKS + ["checks/cases/marked.json", "checks/cases/three-at-once.json"]:
        for width in (40, 60, 80):
            verdict(fits_and_is_whole(path, width), f"in {width} columns: {path}")
    # With all steps it has a line more for each handle that is closed, and all else as it was.
    whole = run("draw", "--all", given=script).out
    closes = r"^.*[|] close [^ ]+ = done .*\n"
    verdict(re.sub(closes, "", whole, flags=re.M) == picture and whole.count(" close ") == 4, "a picture of all steps")


def judge():
    # Each attack comes to what is stored beside it, to the byte.
    for script in ATTACKS + sorted(glob.glob("examples/clients/story/*.json")):
        verdict(replays_to(script), script)
    stored = sorted(glob.glob("examples/attacks/*.out"))
    verdict([it[:-4] for it in stored] == [it[:-5] for it in ATTACKS], "each stored output has its attack")
    over_each_tree()
    explored()
    drawn()
