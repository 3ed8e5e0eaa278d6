"""The tokens of the languages, read from the manual, and grammars for editors that are made from them."""
from __future__ import annotations

import json
import re
from dataclasses import dataclass

from lib.program import fail

# Of the words that can't be names these are sorts and these are values; the others are keywords.
SORTS = ("int", "bool", "text")
VALUES = ("true", "false")
PUNCTUATION = "{}()[],;:.@"
# For each kind of token its group in vim and its scope in TextMate.
KINDS = {
    "Keyword": ("Keyword", "keyword.control"), "Sort": ("Type", "storage.type"), "Value": ("Boolean", "constant.language"),
    "Number": ("Number", "constant.numeric"), "Sign": ("Operator", "keyword.operator"), "Line": ("LineNr", "comment.line.number"),
    "Session": ("Identifier", "variable.other.session"), "Process": ("Special", "variable.other.process"),
    "Roles": ("Type", "entity.name.type"), "Last": ("Statement", "keyword.other"),
}


@dataclass
class Rule:
    """How tokens of a kind are found: the words of a command of vim, and a pattern of TextMate, where it has one. The parts of
    that pattern may be of kinds of their own. Where several rules find a token at one place, the first one counts."""
    kind: str
    vim: str
    textmate: str | None
    parts: tuple = ()


@dataclass
class Language:
    name: str
    title: str
    ends: list
    rules: list
    has_comments: bool = True


def words(kind, found):
    return Rule(kind, f"keyword {kind} {' '.join(found)}", rf"\b({'|'.join(found)})\b")


def pattern(kind, vim, textmate):
    """One pattern in the two forms; vim's is very magic."""
    return Rule(kind, f"match {kind} '\\v{vim}'", textmate)


def signs(found):
    ordered = sorted((sign for sign in found if sign not in PUNCTUATION), key=len, reverse=True)
    escaped = (re.sub(r"([.*/\[\]~^$\\])", r"\\\1", sign) for sign in ordered)
    return Rule("Sign", f"match Sign '{chr(92)}%({(chr(92) + '|').join(escaped)}{chr(92)})'", "|".join(map(re.escape, ordered)))


def found_in(manual, text, what):
    found = re.search(text, manual, re.DOTALL)
    return found[1] if found else fail(f"docs/LANGUAGE.md: {what} aren't where tools/highlighting looks for them")


def once(found):
    return list(dict.fromkeys(found))


def languages(manual):
    """The languages of sources, endpoint files and transcripts, as the manual has them."""
    reserved = found_in(manual, r"These words can't be names: `([a-z ]+)`", "the words that can't be names").split()
    marks = found_in(manual, r"\n\| mark \| `([^\n]+)` \|", "the marks").replace(r"\|", "|").split()
    nodes = once(re.findall(r'"([a-z]+)"', found_in(manual, r'\n(file +(?== "endpoints").*?)\n```', "the words of endpoint files")))
    events = once(re.findall(r"`[0-9]+ ([a-z]+) ", found_in(manual, r"\| Event \| Line \|\n(.*?)\n\n", "the events")))
    runs = [found_in(manual, rf"\n#+ {title}\n(.*?)\n#", "the last lines") for title in ("Runs and transcripts", "The run of an endpoint file")]
    lasts = once(re.findall(r"`([a-z]+) N(?: PROCESS WHY)?`", "".join(runs)))
    numbers, values = pattern("Number", "<[0-9]+>", r"\b[0-9]+\b"), words("Value", VALUES)
    keywords = [word for word in reserved if word not in SORTS + VALUES]
    source = [words("Keyword", keywords), words("Sort", SORTS), values, numbers, signs(marks)]
    endpoints = [words("Keyword", nodes), values, numbers, signs(marks)]
    name = "[A-Za-z_][A-Za-z0-9_]*"
    event, last = f"({'|'.join(events)})", f"({'|'.join(lasts)})"
    transcript = [
        Rule("Keyword", f"match Keyword '\\v(^[0-9]+ )@<={event}>'", rf"^([0-9]+) {event}\b", ("Line", "Keyword")),
        pattern("Line", "^[0-9]+", None),
        pattern("Last", f"^{last}>", rf"^{last}\b"),
        pattern("Session", "#[0-9]+", "#[0-9]+"),
        pattern("Process", "\\%[0-9]+", "%[0-9]+"),
        pattern("Roles", f"{name}\\>{name}", f"{name}>{name}"),
        values,
        pattern("Number", "-?<[0-9]+>", r"-?\b[0-9]+\b"),
    ]
    return [
        Language("chor", "Chor", [".chor"], source),
        Language("chorendpoints", "Chor endpoint programs", [".endpoints"], endpoints),
        Language("chortranscript", "Chor transcript", [".run", ".events"], transcript, has_comments=False),
    ]


def vim(language):
    """A syntax file. Where several items are found at one place vim takes the last one."""
    name = language.name
    rules = [rule.vim.replace(" ", f" {name}", 1) for rule in language.rules]
    links = {rule.kind: KINDS[rule.kind][0] for rule in language.rules} | {"Escape": "SpecialChar", "Text": "String"}
    texts = [
        f"match {name}Escape contained '\\\\[\"\\\\n]'",
        f'region {name}Text start=+"+ skip=+\\\\.+ end=+"+ oneline contains={name}Escape',
    ]
    if language.has_comments:
        texts.append(f"match {name}Comment '//.*$'")
        links["Comment"] = "Comment"
    head = [f'" {language.title}. Written by tools/highlighting.', "if exists('b:current_syntax')", "  finish", "endif"]
    items = [f"syntax {item}" for item in [*reversed(rules), *texts]]
    linked = [f"highlight default link {name}{kind} {group}" for kind, group in links.items()]
    return "\n".join([*head, *items, *linked, f"let b:current_syntax = '{name}'", ""])


def textmate(language):
    """A grammar. Where several patterns are found at one place the first one is taken."""
    def scope(name):
        return {"name": f"{name}.{language.name}"}

    comment = {**scope("comment.line.double-slash"), "match": "//.*$"}
    escape = {**scope("constant.character.escape"), "match": r'\\["\\n]'}
    text = {**scope("string.quoted.double"), "begin": '"', "end": '"|$', "patterns": [escape]}
    rules = []
    for rule in language.rules:
        parts = {str(place): scope(KINDS[kind][1]) for place, kind in enumerate(rule.parts, 1)}
        if rule.textmate:
            rules.append({"match": rule.textmate, "captures": parts} if parts else {**scope(KINDS[rule.kind][1]), "match": rule.textmate})
    grammar = {
        "name": language.title,
        "comment": "Written by tools/highlighting.",
        "scopeName": f"source.{language.name}",
        "fileTypes": [end.lstrip(".") for end in language.ends],
        "patterns": [comment] * language.has_comments + [text, *rules],
    }
    return json.dumps(grammar, indent=2) + "\n"
