"""Reads the definitions of specs/*.antt, and the types of src/*.rt that they speak of: what each one is called, the comment above
it, and what it is made of."""
import glob
import os
import re

NAME = re.compile(r"[^\s(){},;:\"]+")
SIGNS = {"pub", "record", "data", "abbrev", "where", "if", "then", "else", "with", "Type", "λ", "→", "=", "×", "⊥", "_"}
FIELD = re.compile(r"[{;] *[^\s{};]+ = |^ +[^\s{};]+ = (?=.*[;{]$)")  # of a record: its name, not its value
TYPE = re.compile(
    r"((?:^ *//[^!\n][^\n]*\n|^ *//\n|^#\[[^\n]*\n)*)"  # the comment and the attributes
    r"^(?:pub )?(?:struct|enum|trait) (\w+)"
    r"([^\n]*\n(?:[ }][^\n]*\n|\n)*?(?:\}|(?=\n))|[^\n]*;)",  # its body
    re.M,
)


def depth_of(line):
    return len(line) - len(line.lstrip(" "))


def bare(line):
    """A line without its texts and its comment."""
    return re.sub(r'"(\\.|[^"])*"', " ", line).split(" -- ")[0]


def imported(line):
    """What `use A.B.{c, d as e}` or `use A.B as c` brings: the name here, the path, and the name there, if there is one."""
    path, braces, names = line.rstrip(" ;").partition(".{")
    if not braces:
        path, _, here = line.rstrip(" ;").partition(" as ")
        if here:
            yield here.strip(), path.split()[-1], None
        return
    for each in names.rstrip("}").split(","):
        name, _, here = each.strip().partition(" as ")
        yield (here or name).strip(), path.split()[-1], name.strip()


class Definition:
    """A definition of a file: its comment, and its lines, below them those of the modules that it is in."""

    def __init__(self, file, kind, name, comment, lines):
        self.file, self.path, self.crate, self.about = file, file.path, file.crate, file.about
        self.kind, self.name, self.comment, self.lines = kind, name, comment, lines
        self.key = file.path, name

    def constructors(self):
        depth = depth_of(self.lines[0]) + 2
        for line in self.lines[1:] if self.kind == "data" else []:
            found = re.match(r" {%d}(?:pub )?([^\s:()]+)\s*:" % depth, line)
            if found and not line.lstrip().startswith("--"):
                yield found.group(1)

    def bound(self):
        """The names that it binds: parameters, fields, and what it defines below `where`."""
        is_below = False
        for line in map(bare, self.lines):
            for group in re.findall(r"[({]([^(){}:]+) : |λ ([^.]+)\.", line):
                yield from " ".join(group).split()
            if self.kind != "abbrev":
                yield from re.findall(r"^ +(?:pub )?([^\s:()]+) :", line)
            elif is_below and (found := re.match(r"\s+([^\s:()]+)\s(.*\s)?[:=] ", line)):
                yield found.group(1)
                yield from variables(found.group(2) or "")
            is_below = is_below or line.strip() == "where"

    def words(self):
        """The names in it that it doesn't bind, in order."""
        bound, clause = {self.name, *self.bound()}, set()
        for number, line in enumerate(self.lines):
            if line.lstrip().startswith("--"):
                continue
            line = bare(line)
            if self.kind == "abbrev" and number and depth_of(line) == depth_of(self.lines[0]):
                head, sign, _ = line.partition(" =")
                clause = set(variables(head)) if sign else set()
            for word in NAME.findall(FIELD.sub(" ", line)):
                if word not in SIGNS and word.split(".")[0] not in bound | clause:
                    yield word

    def parts(self, repository):
        return (repository.named(self.file, word) for word in self.words())


def variables(head):
    return (word for word in NAME.findall(head) if word[0].islower() and "." not in word)


class SpecFile:
    """A file of specs/: what it is about, what it imports, and its definitions in order."""

    def __init__(self, path, crate, text):
        self.path, self.crate, self.about = path, crate, ""
        self.imports, self.definitions = {}, {}
        self.comment, self.group, self.last, self.modules = [], "", None, []
        for line in text.split("\n"):
            self.take(line, line.split())
        self.made_by = {name: it for it in self.definitions.values() for name in it.constructors()}

    def take(self, line, words):
        if not words:
            self.comment = []
            return
        while self.modules and depth_of(line) < self.modules[-1][0]:
            self.modules.pop()
        is_outer = depth_of(line) == (self.modules[-1][0] if self.modules else 0)
        if is_outer and (words[0] == "use" or words[:2] == ["pub", "use"]):
            self.about = self.about or " ".join(self.comment)
            self.imports.update((here, (path, name)) for here, path, name in imported(line))
        elif is_outer and words[0] == "--":
            text = line.strip()[2:].strip()
            self.comment = [] if text.startswith("----") else self.comment + [text]
            return
        elif is_outer and (words[0] in ("module", "mutual") or words[:2] == ["abbrev", "mutual"]):
            self.modules.append((depth_of(line) + 2, line.strip() if words[0] == "module" else ""))
            self.group = " ".join(self.comment)
        elif is_outer:
            self.begin(line)
        elif self.last:
            self.last.lines.append(line)
        self.comment = []

    def begin(self, line):
        """A definition begins here, or a clause of the one before."""
        found = re.match(r"\s*(?:(abbrev|record|data)\s+|(pub)\s+|)(?:pub\s+)?(?:(record|data)\s+)?([^\s:(){}]+)", line)
        kind = found and (found.group(1) or found.group(3) or found.group(2) or line.split()[1] == ":")
        if not kind:
            if self.last:
                self.last.lines.append(line)
            return
        above = [" " * (depth_of(line) + 4) + module for _, module in self.modules if module]
        kind = kind if kind in ("record", "data") else "abbrev"
        self.last = Definition(self, kind, found.group(4), " ".join(self.comment) or self.group, [line] + above)
        self.group = ""
        self.definitions.setdefault(self.last.name, self.last)


class RustType:
    """A type of src/: the first paragraph of its comment, and its body."""

    about = ""

    def __init__(self, path, crate, name, comment, body, roots):
        self.path, self.crate, self.name, self.body, self.roots = path, crate, name, body, roots
        lines = [line.lstrip("/ ").rstrip() for line in comment.split("\n") if line.startswith("//")]
        self.comment = " ".join(lines[: lines.index("")] if "" in lines else lines)
        self.key = path, name

    def parts(self, repository):
        for word in re.findall(r"\w+", re.sub(r"//[^\n]*", "", self.body)):
            root = self.roots.get(word, "crate")
            yield repository.types.get((self.crate if root == "crate" else root, word))


def rust_types(path, crate, text):
    roots = {}
    for root, names in re.findall(r"^use (\w+)::(?:[\w:]+::)?(\w+|\{[^}]*\});", text, re.M):
        roots.update((name, root) for name in re.findall(r"\w+", names))
    for comment, name, body in TYPE.findall(text):
        yield RustType(path, crate, name, comment, body, roots)


class Repository:
    """All files of specs/, and all types of src/, by crate."""

    def __init__(self, top):
        self.specs, self.types = {}, {}
        for path in sorted(glob.glob(os.path.join(top, "crates/*/s*/*.*t"))):
            short = os.path.relpath(path, top)
            _, crate, folder, name = short.split(os.sep)
            with open(path, encoding="utf-8") as file:
                text = file.read()
            if folder == "specs":
                self.specs[crate, name.partition(".")[0]] = SpecFile(short, crate, text)
            elif folder == "src":
                for found in rust_types(short, crate, text):
                    self.types.setdefault((crate, found.name), found)

    def at(self, path, name):
        """What a name of a path is: a definition, a type, or nothing of this repository."""
        parts = path.split(".")
        if parts[0] != "Rattle" or parts[2:3] != ["specs"] or len(parts) < 4:
            return None
        if parts[3] == "declared":
            return self.types.get((parts[1], parts[5] if len(parts) > 5 else name))
        file = self.specs.get((parts[1], parts[3]))
        return file and self.named(file, name)

    def named(self, file, word):
        """What a word is in a file."""
        first, _, rest = word.partition(".")
        if first in file.imports:
            path, name = file.imports[first]
            return self.at(path, name or rest.split(".")[0])
        return file.definitions.get(first) or file.made_by.get(first)

    def parts_of(self, it):
        """What a definition or a type is made of, each once, in order."""
        found = {part.key: part for part in it.parts(self) if part is not None and part.key != it.key}
        return list(found.values())


def roots(repository, text):
    """What the clauses of `chor` name."""
    imports = {}
    for line in re.findall(r"^ghost use [^;]*;", text, re.M):
        imports.update((here, (path, name)) for here, path, name in imported(line))
    head = text.partition("pub fn chor<")[2].partition("\n{")[0]
    words = [word for clause in re.findall(r"ensures \w+ \{(.*)\}", head) for word in NAME.findall(clause)]
    found = [repository.at(*imports[word]) for word in words if word in imports]
    return list({it.key: it for it in found if it is not None}.values())


def reached(repository, first):
    """All that these are made of, each after those that it is a part of, in the order in which they are named."""
    done, order = set(), []

    def go(it):
        if it.key not in done:
            done.add(it.key)
            for part in reversed(repository.parts_of(it)):
                go(part)
            order.append(it)

    for it in reversed(first):
        go(it)
    return order[::-1]


def ordered(repository, found, crates):
    """Those of each crate together, and in a crate those of each file, so that a file comes before what it is made of."""
    order = []
    for crate in crates:
        inside = [it for it in found if it.crate == crate]
        files, before = [], {}
        for it in inside:
            before.setdefault(it.path, set())
            for part in repository.parts_of(it):
                if part.crate == crate and part.path != it.path:
                    before.setdefault(part.path, set()).add(it.path)
        while before:
            free = [path for path in before if not before[path]] or list(before)[:1]
            files.append(free[0])
            del before[free[0]]
            for rest in before.values():
                rest.discard(free[0])
        order += [it for path in files for it in inside if it.path == path]
    return order
