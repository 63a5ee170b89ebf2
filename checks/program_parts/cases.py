"""How a case is judged, and the reader of checks/cases, whose format checks/program describes."""
import re
import shlex
import subprocess

from frame import PROGRAM, read, run, started, verdict


def rows(name):
    """The rows of a table of checks/cases/made.rows, each as its fields."""
    table = read("checks/cases/made.rows").partition(f"== {name}\n")[2].partition("\n\n")[0].rstrip("\n")
    return [line.split("|") for line in table.split("\n") if not line.startswith("#")]


def is_printed(wanted, printed):
    """To the byte. Where three dots end what is wanted, anything may stand in their place."""
    return printed.startswith(wanted[:-4]) if wanted.endswith("...\n") else printed == wanted


def comes_to(name, status, out, err, *words, given):
    """The program's status over that script, and all that it writes to both streams."""
    ran = run(*words, given=given)
    holds = ran.status == status and is_printed(out, ran.out) and is_printed(err, ran.err)
    verdict(holds, name, f"wanted status {status} and '{out}{err}', got status {ran.status} and '{ran.out}{ran.err}'")


def refuses(name, wanted, *words, given):
    """The script is refused so, and nothing is printed; with an empty text it isn't refused."""
    ran = run(*words, given=given)
    line = ran.err.partition("\n")[0]
    holds = (ran.status, ran.out, line) == (3, "", f"inroot: script: {wanted}") if wanted else ran.status == 0
    verdict(holds, name, f"wanted '{wanted}', got status {ran.status}, '{ran.out}' and '{line}'")


def in_one_line(line):
    """A case that one line has."""
    name, status, words, *wanted = (it.strip() for it in line.split("|"))
    ran = started(["bash", "-c", f'exec "$0" {words}', PROGRAM], subprocess.DEVNULL)
    told, other = (ran.out, ran.err) if status == "0" else (ran.err, ran.out)
    lines = "".join(f"{it}\n" for it in wanted if it)
    is_told = wanted[0] in told.split("\n") if wanted[0].startswith("error: ") else told == lines
    verdict(str(ran.status) == status and is_told and other == "", name, f"wanted status {status} and {wanted}, got {ran}")


def words_of(command):
    """As the shell reads them."""
    return shlex.split(re.sub(r"\$'(.*?)'", lambda it: shlex.quote(it[1].encode().decode("unicode_escape")), command))


class Paragraph:
    """Commands, scripts, and what each command comes to over each script."""

    def __init__(self):
        self.commands, self.scripts, self.status, self.out, self.err = [], [], 0, "", ""

    def judge(self):
        if self.commands and not (self.scripts and self.out + self.err):
            verdict(False, f"cases without a script, or with nothing that is wanted: {self.commands[0]}")
        for command in self.commands:
            for script in map("".join, self.scripts):
                comes_to(f"{command}: {script}", self.status, self.out, self.err, *words_of(command), given=script)


def judge_file(path):
    """Judges the cases of a file. A script is what a further line goes on with, and what comes behind that."""
    own, frame, above = Paragraph(), ["*"], None
    for line in read(path).split("\n") + [""]:
        mark, text = line[:2].strip() or line[:2], line[2:]
        if not line:
            own.judge()
            own = Paragraph()
        elif mark == "$":
            own.commands.append(text)
        elif mark == "<":
            above = [text, ""]
            own.scripts.append(above)
        elif mark == "@":
            own.scripts.append([read(text).rstrip("\n")])
        elif mark == "~":
            above = frame = [text]
        elif mark == "*":
            front, _, back = frame[0].partition("*")
            above = [front + text, back]
            own.scripts.append(above)
        elif mark == "  ":
            above[0] += "\n" + text
        elif mark == "=":
            own.status = int(text)
        elif mark == ">":
            own.out += text + "\n"
        elif mark == "!":
            own.err += f"inroot: {text}\n"
        elif mark == "|":
            in_one_line(text)
        elif mark != "#":
            verdict(False, f"no line of a case: {line}")
