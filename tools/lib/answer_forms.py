"""Which statuses a command has, and what its text looks like with each, as docs/LANGUAGE.md says."""
import os
import re

TRANSCRIPTS = (b"run", b"exec", b"link", b"resume")
COMMANDS = (b"check", b"fmt", b"types", b"project", b"run", b"exec", b"link", b"replay", b"order", b"conform", b"resume", b"gen")
WORDS = [
    b"hello.chor", b"hello.chor", b"hello.chor", b"hello.run", b"hello.run", b"hello.endpoints", b"stuck.endpoints", b"nowhere", b".", b"",
    b"--seed", b"--steps", b"--workers", b"--capacity", b"--pair", b"--lead", b"--text", b"--fast", b"-", b"0", b"1", b"2", b"3", b"16", b"17", b"01", b"-1",
    b"4000", b"4294967295", b"4294967296", b"1000000", b"1000001", b"18446744073709551616", b"na\xc3\xafve", b"a b", b"a\nb", b"\xff",
]
REFUSED = re.compile(rb"refused (?:[LPNGVTUE][0-9] ([1-9]\d*):([1-9]\d*)|M[12] ([1-9]\d*):([1-9]\d*) [%\w]+|K[12] .+|O1 [1-9]\d*)\n")
FORMS = {
    b"check": rb"ok\n",
    b"fmt": rb"(?:.+\n)*\}\n",
    b"types": rb"(?:local \w+@\w+\n(?:\d+: .+\n)+)*",
    b"project": rb"endpoints 1;\n(?:.+\n)*",
    b"replay": rb"replayed \d+ (?:ended|open)\n",
    b"order": rb"(?:\d+ (?:first|after(?: \d+)+)\n)*order \d+\n|(?:before|after|beside|same)\n|(?:\d+ .+\n)+limit \d+\n",
    b"conform": rb"conforms \d+\n",
    b"gen": rb"gen \d+ events \d+ sessions \d+ processes \d+\n|protocol Round (?:.+\n)*\}\n",
}
LAST = {0: re.compile(rb"(?:end|limit) (\d+)\Z"), 7: re.compile(rb"stuck (\d+) [%\w]+ (?:(?:empty|wrong|full) #\d+ \w+>\w+|absent \w+ \w+)\Z")}
LINES = {2: rb"usage: chor COMMAND ARGUMENTS\n", 3: rb"read fault [\s\S]*\n", 6: rb"unmatched [1-9]\d*\n", 8: rb"too large [\s\S]*\n", 10: rb""}


def statuses(command):
    """The statuses of a command, those of its words and files aside."""
    if command in (b"replay", b"order", b"conform", b"resume"):
        return (0, 1, 6)
    return (0, 1, 7) if command == b"exec" else (0,) if command == b"gen" else (0, 1)


def is_transcript(text, status):
    """Whether the lines are numbered from 1, and the last one tells how many they are."""
    *lines, last = text.removesuffix(b"\n").split(b"\n")
    found = LAST[status].fullmatch(last)
    return bool(found) and int(found[1]) == len(lines) and all(line.startswith(b"%d " % (at + 1)) for at, line in enumerate(lines))


def is_text(command, text, status):
    if not text.endswith(b"\n") and not (command == b"types" and not text):
        return False
    return is_transcript(text, status) if command in TRANSCRIPTS else re.fullmatch(FORMS[command], text) is not None


def has_place(text, names, room):
    """Whether the place of a refusal is one of a file of the words, or its end."""
    line, column = (int(number) for number in REFUSED.fullmatch(text).groups() if number)
    for name in names:
        path = os.path.join(os.fsencode(room), name)
        if name and os.path.isfile(path):
            with open(path, "rb") as file:
                lines = file.read().split(b"\n")
            if line <= len(lines) and column <= len(lines[line - 1]) + 1:
                return True
    return False


def refusal_fault(words, text, room):
    if not REFUSED.fullmatch(text):
        return "a refusal of no form"
    is_placed = text.split()[1][:1] not in (b"K", b"O")
    return "a place that isn't there" if is_placed and not has_place(text, words[1:3], room) else None


def fault(words, status, text, room):
    """What is wrong with an answer by itself, or None."""
    command = words[0] if words else b""
    if status in LINES and (status != 6 or command in COMMANDS and 6 in statuses(command)):
        return None if re.fullmatch(LINES[status], text) else "a text of no form"
    if command not in COMMANDS or status not in statuses(command):
        return "a status that it hasn't"
    if status == 1:
        return refusal_fault(words, text, room)
    return None if is_text(command, text, status) else "a text of no form"
