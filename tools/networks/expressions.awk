# Values of expressions, for a plain network: those of docs/LANGUAGE.md, "Expressions", of small numbers. Tokens are in the list
# `token`, and a value is `int 3`, `bool true`, `text "a"` or `part #0.A`.

# What a value counts as where a number is asked for, or a truth value.
function number(v) { return v ~ /^int / ? substr(v, 5) + 0 : 0 }
function truth(v) { return v == "bool true" }
function int_of(n) { return "int " (n == 0 ? 0 : n) }
function bool_of(b) { return b ? "bool true" : "bool false" }

# The value of the expression at `here` for a process, and `here` is the place after it.
function expression(p,   left, right) {
  left = conjunction(p)
  while (token[here] == "||") {
    here++
    right = conjunction(p)
    left = bool_of(truth(left) || truth(right))
  }
  return left
}

function conjunction(p,   left, right) {
  left = comparison(p)
  while (token[here] == "&&") {
    here++
    right = comparison(p)
    left = bool_of(truth(left) && truth(right))
  }
  return left
}

function comparison(p,   left, right, operator) {
  left = sum(p)
  operator = token[here]
  if (operator !~ /^(==|!=|<|<=)$/) return left
  here++
  right = sum(p)
  if (operator == "==") return bool_of(left "" == right "")
  if (operator == "!=") return bool_of(left "" != right "")
  return bool_of(operator == "<" ? number(left) < number(right) : number(left) <= number(right))
}

function sum(p,   left, right, operator) {
  left = product(p)
  while (token[here] == "+" || token[here] == "-") {
    operator = token[here++]
    right = product(p)
    left = int_of(operator == "+" ? number(left) + number(right) : number(left) - number(right))
  }
  return left
}

function product(p,   left, right, operator) {
  left = operand(p)
  while (token[here] == "*" || token[here] == "/") {
    operator = token[here++]
    right = operand(p)
    if (operator == "*") left = int_of(number(left) * number(right))
    else left = int_of(number(right) == 0 ? 0 : int(number(left) / number(right)))
  }
  return left
}

function operand(p,   word, inner) {
  word = token[here++]
  if (word == "-") return int_of(0 - number(operand(p)))
  if (word == "!") return bool_of(!truth(operand(p)))
  if (word == "true" || word == "false") return "bool " word
  if (word ~ /^[0-9]/) return int_of(word + 0)
  if (word ~ /^"/) return "text " word
  if (word != "(") return value_of(p, word)
  inner = expression(p)
  here++
  return inner
}
