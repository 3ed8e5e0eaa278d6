# The sorts of expressions, for the reason of a wrong sort. `sort_fault` says the first operand that doesn't fit.

function sort_of(process, first, last,   sort) {
  sort_fault = ""
  next_token = first
  past_token = last
  whose = process
  return sort_at(1)
}

# Each level of operators binds more strongly than the one before; level 6 is an operand.
function sort_at(level,   left, right, sign) {
  if (level == 6) return sort_of_operand()
  left = sort_at(level + 1)
  while (next_token < past_token && level_of(text[next_token]) == level) {
    sign = text[next_token++]
    right = sort_at(level + 1)
    left = sort_after(sign, left, right)
  }
  return left
}

function level_of(sign) {
  if (sign == "||") return 1
  if (sign == "&&") return 2
  if (sign ~ /^(==|!=|<|<=)$/) return 3
  if (sign ~ /^[+-]$/) return 4
  if (sign ~ /^[*\/]$/) return 5
  return 0
}

function sort_after(sign, left, right,   wanted) {
  if (sign == "==" || sign == "!=") {
    if (left != right) fault(quoted(sign) " compares two of one sort, and has " named_sort(left) " and " named_sort(right))
    return "bool"
  }
  wanted = sign == "||" || sign == "&&" ? "bool" : "int"
  want(sign, wanted, left)
  want(sign, wanted, right)
  return sign == "<" || sign == "<=" ? "bool" : wanted
}

function want(sign, wanted, sort) {
  if (sort != wanted) fault(quoted(sign) " takes " (wanted == "int" ? "whole numbers" : "truth values") ", and not " named_sort(sort))
}

function fault(said) { if (sort_fault == "") sort_fault = said }

function sort_of_operand(   word, sort) {
  word = text[next_token++]
  if (word == "-" || word == "!") {
    sort = sort_of_operand()
    want(word, word == "-" ? "int" : "bool", sort)
    return word == "-" ? "int" : "bool"
  }
  if (word == "(") { sort = sort_at(1); next_token++; return sort }
  if (word == "true" || word == "false") return "bool"
  if (kind[next_token - 1] == "number") return "int"
  if (kind[next_token - 1] == "text") return "text"
  return sort_set[whose, word]
}

function named_sort(sort) {
  return sort == "int" ? "a whole number" : sort == "bool" ? "a truth value" : sort == "text" ? "a text" : "another sort"
}

# The first variable from token `first` to before `last` that a process hasn't set; "" where it has set all.
function unset_variable(process, first, last,   i) {
  for (i = first; i < last; i++)
    if (kind[i] == "word" && !has_word(set_by[process], text[i])) return text[i]
  return ""
}
