"""The value of an expression, as docs/LANGUAGE.md says under "Expressions", and how it is written."""

LEAST, GREATEST = -(2**63), 2**63 - 1


def fits(number):
    return max(LEAST, min(GREATEST, number))


def quotient(left, right):
    whole = abs(left) // abs(right) if right else 0
    return whole if (left < 0) == (right < 0) else -whole


def value_of(term, variables):
    """A number, a truth value, or a text as a pair."""
    if not isinstance(term, tuple) or term[0] == "text":
        return term
    if term[0] == "variable":
        return variables.get(term[1], 0)
    operator, *operands = term
    values = [value_of(operand, variables) for operand in operands]
    if len(values) == 1:
        return not values[0] if operator == "!" else fits(-values[0])
    left, right = values
    return {
        "||": lambda: left or right,
        "&&": lambda: left and right,
        "==": lambda: left == right,
        "!=": lambda: left != right,
        "<": lambda: left < right,
        "<=": lambda: left <= right,
        "+": lambda: fits(left + right),
        "-": lambda: fits(left - right),
        "*": lambda: fits(left * right),
        "/": lambda: fits(quotient(left, right)),
    }[operator]()


def shown(value):
    if isinstance(value, bool):
        return "true" if value else "false"
    return value[1] if isinstance(value, tuple) else str(value)
