"""Random changes of texts, for tools/fuzz: of bytes, of tokens and of lines."""
import re

TOKEN = re.compile(rb'"(?:\\.|[^"\\\n])*"|\w+|:=|->|==|!=|<=|&&|\|\||\s+|.', re.DOTALL)
WORDS = [
    *(word.encode() for word in "protocol service proc main start new if else call end show host then int bool text true false chor capacity".split()),
    *(word.encode() for word in "endpoints channel process join send recv pick branch give gain set min max gap dice k p q A B".split()),
    *(mark.encode() for mark in "{ } ( ) [ ] , ; : . = := -> | @ + - * / == != < <= && || !".split()),
    b"0", b"1", b"2", b"007", b"9223372036854775807", b"9223372036854775808", b'""', b'"a\\"\\n"', b'"', b"//", b"%2", b"#0", b"\xc3\xa9", b"w" * 65,
]


def change_bytes(random, data, _):
    """One byte is another one, or a piece is left out, comes twice, or is cut off at the end."""
    start = random.randrange(len(data) + 1)
    stop = min(len(data), start + random.choice((1, 1, 2, 8, 64)))
    kind = random.randrange(4)
    if kind == 0:
        return data[:start] + bytes([random.randrange(256)]) + data[stop:]
    if kind == 1:
        return data[:start] + data[stop:]
    if kind == 2:
        return data[:stop] + data[start:stop] * random.choice((1, 2, 40)) + data[stop:]
    return data[:start]


def change_pieces(random, pieces, others):
    """One piece is another one, is left out, comes twice, changes its place with another one, or a new one comes."""
    if not pieces:
        return [random.choice(others)]
    at, to = random.randrange(len(pieces)), random.randrange(len(pieces))
    kind = random.randrange(6)
    if kind == 0:
        pieces[at] = random.choice(others)
    elif kind == 1:
        pieces[at] = pieces[to]
    elif kind == 2:
        del pieces[at]
    elif kind == 3:
        pieces.insert(to, pieces[at])
    elif kind == 4:
        pieces[at], pieces[to] = pieces[to], pieces[at]
    else:
        pieces.insert(at, random.choice(others))
    return pieces


def change_tokens(random, data, _):
    """One token that isn't white space changes."""
    pieces = TOKEN.findall(data)
    visible = [at for at, piece in enumerate(pieces) if not piece.isspace()]
    changed = change_pieces(random, [pieces[at] for at in visible], WORDS)
    if len(changed) == len(visible):
        for at, piece in zip(visible, changed):
            pieces[at] = piece
        return b"".join(pieces)
    return b" ".join(changed)


def rename(random, data, _):
    """One word stands for another one, or for a new one, wherever it is."""
    words = [piece for piece in TOKEN.findall(data) if piece[:1].isalpha() and piece not in WORDS]
    if not words:
        return data
    old, new = random.choice(words), random.choice([random.choice(words), b"renamed"])
    return b"".join(new if piece == old else piece for piece in TOKEN.findall(data))


def renumber(random, data, _):
    """One number is another one."""
    pieces = TOKEN.findall(data)
    numbers = [at for at, piece in enumerate(pieces) if piece.isdigit()]
    if numbers:
        pieces[random.choice(numbers)] = random.choice((b"0", b"1", b"2", b"3", b"20", b"26", b"9223372036854775807"))
    return b"".join(pieces)


def respace(random, data, _):
    """White space or a comment comes between two tokens."""
    pieces = TOKEN.findall(data)
    pieces.insert(random.randrange(len(pieces) + 1), random.choice((b" ", b"\n", b"\t\r\n", b"// \xe2\x98\x82\n")))
    return b"".join(pieces)


def change_lines(random, data, other):
    """One line changes, or is one of another text."""
    others = other.splitlines(keepends=True) or [b"\n"]
    return b"".join(change_pieces(random, data.splitlines(keepends=True), others))


def join_fronts(random, data, other):
    """A front of a text, and what stands from some place on in another one."""
    return data[: random.randrange(len(data) + 1)] + other[random.randrange(len(other) + 1) :]


CHANGES = [change_bytes, join_fronts, *[change_tokens] * 4, *[change_lines] * 2, *[rename] * 2, *[renumber] * 2, respace]


def changed(random, data, other):
    """The text after a few changes, most often one."""
    for _ in range(random.choice((0, 1, 1, 1, 1, 2, 3, 8))):
        data = random.choice(CHANGES)(random, data, other)
    return data
