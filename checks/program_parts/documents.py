"""What documents show of the program: the commands that begin with a dollar, and what these print."""
import glob
import os
import re
import subprocess

from frame import PROGRAM, read, run, started, verdict


def shell(command, **streams):
    """Runs a command of a document, in which the program stands for the script ./inroot."""
    command = command.replace("./inroot", '"$program"')
    return started(["bash", "-c", command], subprocess.DEVNULL, env={**os.environ, "program": PROGRAM}, **streams).out


def examples_of(path):
    """Each line that begins with a dollar is run, and the lines below it are what it prints; without any it prints something."""
    for command, below in re.findall(r"^    \$ (.*)\n((?:    (?!\$ ).*\n)*)", read(path), re.M):
        # A race of a real runtime, which checks/clients makes.
        if "made-on-host" not in command.split()[0]:
            told = shell(command, stderr=subprocess.STDOUT)
            verdict(told and (not below or told == re.sub("^    ", "", below, flags=re.M)), f"{path}: {command}", f"printed '{told}'")


def runs_manual(path):
    """Each command of a man page ends well, where script.json stands for any script."""
    shown = re.findall(r"^[.]Dl \$ (.*)$", read(path), re.M)
    for command in shown:
        command = re.sub(r"\binroot ", "./inroot ", command).replace(" script.json", " examples/attacks/moved-out.json").split(" > ")[0]
        verdict(shell("set -o pipefail; " + command + " >/dev/null && echo well") == "well\n", f"{path}: {command}")
    verdict(len(shown) >= 3, f"{path} shows commands")


def schedules_of_attacks():
    """The schedule that docs/attacks.md names is that of the attack."""
    own = r"^## (\S+)\n(?:(?!## ).*\n)*?.*Schedule: `([^`]*)`"
    shown = re.findall(own, read("docs/attacks.md"), re.M)
    for attack, turns in shown:
        ran = run("replay", "--schedule", turns, given=read(f"examples/attacks/{attack}.json"))
        verdict(ran.out == read(f"examples/attacks/{attack}.out"), f"the schedule of {attack}")
    verdict(len(shown) == len(glob.glob("examples/attacks/*.json")), "each attack is shown")


def judge():
    schedules_of_attacks()
    runs_manual("man/inroot.1")
    of_others = {"docs/HOST.md", "examples/runtime/README.md"}
    found = {path for path in ["README.md", *glob.glob("docs/*.md"), *glob.glob("crates/*/README.md"), *glob.glob("examples/*/README.md")]
             if re.search(r"^    \$ ", read(path), re.M)}
    verdict({"README.md", "docs/SCRIPT.md", "docs/cve-2024-45310.md"} <= found, "documents show commands")
    for path in sorted(found - of_others):
        examples_of(path)
