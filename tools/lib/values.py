"""Values of expressions: whole numbers of 64 bits that stop at the greatest and the least one, truth values and texts."""
import re

LEAST, GREATEST = -(2**63), 2**63 - 1
ESCAPES = {'"': '\\"', "\\": "\\\\", "\n": "\\n"}


def kept(number):
    return min(max(number, LEAST), GREATEST)


def number_of(value):
    return value if type(value) is int else 0


def truth_of(value):
    return value is True


def quotient(left, right):
    """Rounded toward zero, and 0 where the divisor is."""
    if right == 0:
        return 0
    size = abs(left) // abs(right)
    return size if (left < 0) == (right < 0) else -size


NUMBERS = {
    "+": lambda a, b: kept(a + b), "-": lambda a, b: kept(a - b), "*": lambda a, b: kept(a * b), "/": lambda a, b: kept(quotient(a, b)),
    "<": lambda a, b: a < b, "<=": lambda a, b: a <= b,
}


def gap(left, right):
    """How far apart two numbers are, where that fits."""
    return kept(abs(left - right))


HOSTS = {"min": min, "max": max, "gap": gap, "dice": lambda a, b: 1 + gap(a, b) % 6}


def value_of(expression, variables):
    """The value; a variable that isn't set is 0."""
    if isinstance(expression, str):
        return literal(expression, variables)
    operator, *operands = expression
    values = [value_of(each, variables) for each in operands]
    if operator == "!":
        return not truth_of(values[0])
    if operator == "-" and len(values) == 1:
        return kept(-number_of(values[0]))
    if operator in ("==", "!="):
        is_same = type(values[0]) is type(values[1]) and values[0] == values[1]
        return is_same == (operator == "==")
    if operator in ("&&", "||"):
        left, right = map(truth_of, values)
        return (left and right) if operator == "&&" else (left or right)
    return NUMBERS[operator](*map(number_of, values))


def literal(token, variables):
    if token[0].isdigit():
        return int(token)
    if token[0] == '"':
        return re.sub(r"\\(.)", lambda found: "\n" if found[1] == "n" else found[1], token[1:-1])
    return {"true": True, "false": False}.get(token, variables.get(token, 0))


def text_of(value):
    """The value as a transcript writes it."""
    if isinstance(value, str):
        return '"' + "".join(ESCAPES.get(letter, letter) for letter in value) + '"'
    return str(value).lower() if isinstance(value, bool) else str(value)
