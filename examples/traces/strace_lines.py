"""The lines that strace(1) writes with -o: calls with their arguments and results. Interrupted ones are put
together."""

import re

LINE_MOST = 1 << 20
PREFIX = re.compile(r'\s*(?:([0-9]{1,10})\s+)?(?:(?:[0-9]+:[0-9][0-9]:[0-9][0-9](?:\.[0-9]+)?|[0-9]+\.[0-9]+)\s+)?')
CALL = re.compile(r'([a-z_][a-z0-9_]*)\(')
RESUMED = re.compile(r'<\.\.\. ([a-z_][a-z0-9_]*) resumed>')
RESULT = re.compile(r'\s*=\s+(?:(-?[0-9]+)|(0x[0-9a-f]+)|\?)(?:<([^>]*)>)?(?:\s+(E[A-Z0-9]+)\b)?')
ENDED = re.compile(r'\+\+\+ (?:exited with -?[0-9]+|killed by \S+(?: \(core dumped\))?) \+\+\+$')
SUPERSEDED = re.compile(r'\+\+\+ superseded by execve in pid ([0-9]{1,10}) \+\+\+$')
UNFINISHED = re.compile(r'\s*<unfinished \.\.\.>$')
DESCRIPTOR = re.compile(r'(-?[0-9]+|AT_FDCWD)(?:<(.*)>)?$', re.S)
QUOTED = re.compile(r'"((?:[^"\\]|\\.)*)"(\.\.\.)?', re.S)
ESCAPED = re.compile(rb'\\(x[0-9a-fA-F]{1,2}|[0-7]{1,3}|.)', re.S)
LETTERS = {b'n': b'\n', b't': b'\t', b'r': b'\r', b'v': b'\v', b'f': b'\f', b'a': b'\a', b'b': b'\b', b'e': b'\x1b'}
CLOSING = {'(': ')', '[': ']', '{': '}'}
# Above it a number is none that a descriptor or a process can have.
DIGITS_MOST = 18


class Event:
    """What a line shows: a `call` that ended, one that has `begun`, the `end` of a process, or a line that is `bad`."""

    def __init__(self, what, line, pid, name='', args=(), result=None, error=None, shown=None, begun=None, why=''):
        self.what, self.line, self.pid, self.name, self.args = what, line, pid, name, list(args)
        self.result, self.error, self.shown, self.why = result, error, shown, why
        self.begun = line if begun is None else begun

    def lines(self):
        return {self.line, self.begun}


def skip_string(text, at):
    """Where the string that begins at this quote ends, or None."""
    found = QUOTED.match(text, at)
    return found.end() if found else None


def skip_annotation(text, at):
    """Where the path ends that `-y` shows behind a descriptor."""
    end = text.find('>', at)
    return None if end < 0 else end + 1


def skip_comment(text, at):
    end = text.find('*/', at)
    return None if end < 0 else end + 2


def skipped(text, at):
    """Where a string, a comment or an annotation ends that begins here; `at` itself, if none does."""
    if text[at] == '"':
        return skip_string(text, at)
    if text.startswith('/*', at):
        return skip_comment(text, at)
    if text[at] == '<' and at and (text[at - 1].isdigit() or text[at - 1] == 'D') and text[at + 1:at + 2] != '<':
        return skip_annotation(text, at)
    return at


def split_arguments(text, at):
    """The arguments behind a call's parenthesis, and where the text goes on; None if they don't end."""
    found, open_ones, begin = [], [], at
    while at < len(text):
        after = skipped(text, at)
        if after is None:
            return None
        if after > at:
            at = after
            continue
        char = text[at]
        if char in CLOSING:
            open_ones.append(CLOSING[char])
        elif open_ones and char == open_ones[-1]:
            open_ones.pop()
        elif char == ')' and not open_ones:
            last = text[begin:at].strip()
            return found + ([last] if last or found else []), at + 1
        elif char == ',' and not open_ones:
            found.append(text[begin:at].strip())
            begin = at + 1
        at += 1
    return None


def unescaped(text):
    """The bytes of a string as strace shows it."""
    def one(found):
        what = found[1]
        if what[:1] == b'x':
            return bytes([int(what[1:], 16)])
        if what.isdigit():
            return bytes([int(what, 8) & 255])
        return LETTERS.get(what, what)
    return ESCAPED.sub(one, text.encode('utf-8', 'surrogateescape'))


def text_of(argument):
    """The text that an argument is, and whether strace cut it; None if the argument is no text. Bytes that aren't UTF-8
    are surrogates in it."""
    found = QUOTED.fullmatch(argument)
    if not found:
        return None
    return unescaped(found[1]).decode('utf-8', 'surrogateescape'), bool(found[2])


def descriptor_of(argument):
    """The number of a descriptor, None for AT_FDCWD, and the path that -y shows. ValueError if it's none."""
    found = DESCRIPTOR.match(argument)
    if not found or len(found[1]) > DIGITS_MOST:
        raise ValueError('no descriptor')
    return (None if found[1] == 'AT_FDCWD' else int(found[1])), found[2]


def number_of(text):
    """A number as strace shows it. ValueError if it's none, or has more digits than any: Python 3.9 takes these."""
    if len(text) > DIGITS_MOST:
        raise ValueError('a number too large')
    return int(text, 0)


def finished(line, pid, text, begun=None):
    """The event of a call's whole text."""
    head = CALL.match(text)
    parts = split_arguments(text, head.end()) if head else None
    result = RESULT.match(text, parts[1]) if parts else None
    if not result:
        return Event('bad', line, pid, why='no call of strace -o')
    if result[1] and len(result[1]) > DIGITS_MOST:
        return Event('bad', line, pid, why='a number too large')
    value = int(result[1]) if result[1] else int(result[2], 16) if result[2] else None
    return Event('call', line, pid, head[1], parts[0], value, result[4], result[3], begun)


class Reader:
    """Reads a trace. A call that is interrupted is an event as it begins, and one as it ends."""

    def __init__(self, file):
        self.file, self.pending = file, {}

    def texts(self):
        """The lines with their numbers, counted from 1; None for one that is too long."""
        number = 0
        while True:
            line = self.file.readline(LINE_MOST + 1)
            if not line:
                return
            number += 1
            if len(line) <= LINE_MOST:
                yield number, line.decode('utf-8', 'surrogateescape').rstrip('\r\n')
                continue
            while line and not line.endswith(b'\n'):
                line = self.file.readline(LINE_MOST)
            yield number, None

    def events(self):
        for number, text in self.texts():
            if text is None:
                yield Event('bad', number, 0, why='a line of more than %d bytes' % LINE_MOST)
            elif text.strip():
                yield from self.of_line(number, text)
        for pid, (line, _) in self.pending.items():
            yield Event('bad', line, pid, why='a call that never ended')

    def of_line(self, number, text):
        prefix = PREFIX.match(text)
        pid, rest = int(prefix[1] or 0), text[prefix.end():]
        superseded = SUPERSEDED.match(rest)
        if rest.startswith('--- '):
            return
        if superseded:
            self.pending[pid] = self.pending.pop(int(superseded[1]), (number, ''))
            yield Event('superseded', number, pid, result=int(superseded[1]))
        elif ENDED.match(rest):
            self.pending.pop(pid, None)
            yield Event('end', number, pid)
        elif UNFINISHED.search(rest):
            yield from self.unfinished(number, pid, UNFINISHED.sub('', rest))
        elif RESUMED.match(rest):
            yield self.resumed(number, pid, RESUMED.match(rest), rest)
        else:
            yield finished(number, pid, rest)

    def unfinished(self, number, pid, text):
        head = CALL.match(text)
        if pid in self.pending or not head:
            yield Event('bad', number, pid, why='a call that begins within another' if head else 'no call of strace -o')
            return
        self.pending[pid] = number, text
        yield Event('begun', number, pid, head[1], [text[head.end():].strip()])

    def resumed(self, number, pid, found, rest):
        begun, text = self.pending.pop(pid, (number, ''))
        if not text.startswith(found[1] + '('):
            return Event('bad', number, pid, why='the end of a call whose beginning is not here')
        return finished(number, pid, text + rest[found.end():], begun)
