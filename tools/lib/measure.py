"""How wide a text is, where each letter takes one cell and a wide one two, and texts as a picture can show them."""
import unicodedata


def cells(text):
    return sum(0 if unicodedata.combining(letter) else 2 if unicodedata.east_asian_width(letter) in "WF" else 1 for letter in text)


def visible(text):
    """The text with a picture in the place of each control letter, which no terminal and no XML may be given."""
    return "".join(shown_letter(letter) for letter in text)


def shown_letter(letter):
    code = ord(letter)
    if code < 0x20:
        return chr(0x2400 + code)
    if unicodedata.category(letter) in ("Cc", "Cf", "Cs", "Zl", "Zp") or code & 0xFFFE == 0xFFFE:
        return "\ufffd"
    return letter


def shortened(text, most):
    """The text, or as much of it as `most` cells hold with a mark that something is left out."""
    text = visible(text)
    if cells(text) <= most:
        return text
    while cells(text) >= most:
        text = text[:-1]
    return f"{text}…"
