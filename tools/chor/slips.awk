# The commonest slips: which row of the tables in docs/RULES.md fits to the token at a place. Where one may be meant and another
# could be too, the row itself says maybe.

# The slip at token i, where no source goes on.
function slip_at(i,   word, before, opened, slip) {
  word = text[i]
  before = text[i - 1]
  if (i == 1 && word == "endpoints") return "endpoints 1;"
  if (i == token_count && !has_main()) return "a file without main"
  if (i == token_count && open_braces(i)) return "a missing }"
  if (i == 2 && before == "chor") return "a version other than 2"
  if ((word == "chor" || word == "capacity") && !open_braces(i) && before ~ /^(|;|})$/) return "a header in the middle"
  if (word == "if" && before == "else") return "else if"
  if (word == "end" && before == "then") return "then end"
  if (touches(i, "/", "*")) return "/* */"
  if (word == ";" && before == ")" && is_call(i - 1)) return "call F(p);"
  if (word == ";" && (before == "end" || before == "}")) return "end;"
  if (before == "if" && word == "(") return "if (p.x < 3)"
  if (text[i - 2] == "if" && kind[i - 1] == "word" && word != ".") return "if x < 3"
  if (kind[i] == "keyword" && before ~ /^(\(|\[|,|\.|protocol|service|proc|start|call)$/) return "a keyword as a name"
  if (text[i - 2] == ":" && word == "then" && !is_in_body(i)) return "a sort that isn't there"
  if (word == "=" && is_in_body(i)) return text[i - 2] == "." && statement_at(i) == i - 3 ? "p.x = 1" : "if p.x = 1"
  if (word ~ /^(==|!=|<|<=)$/ && in_expression(i) && (kind[i - 1] ~ /^(word|number|text)$/ || before == ")")) return "1 < x < 3"
  if (word == "." && in_expression(i)) return "p.x in an expression"
  if (word == "else") return "else without if"
  if (before == "}" && (opened = opening(i - 1)) && (slip = slip_after_block(i, opened)) != "") return slip
  if (word ~ /^(protocol|service|proc|main)$/ && open_braces(i)) return "a missing }"
  if (!open_braces(i) && (i == 1 || before == "}" || before == ";")) return "outside of all braces"
  if (word == "}" && (before == ";" || before == "{") && is_in_body(i)) return "a block without end"
  if (before == "end" && is_in_body(i)) return "end p show 1"
  if (in_expression(i) && (kind[i] == "word" || kind[i] == "keyword" || word == "}")) return "a missing ;"
  return ""
}

function touches(i, first, second) {
  return text[i] == first && text[i + 1] == second && column[i + 1] == column[i] + 1 && row[i] == row[i + 1] \
    || text[i] == second && text[i - 1] == first && column[i] == column[i - 1] + 1 && row[i] == row[i - 1]
}

# Whether the parenthesis that closes at token i is that of a call.
function is_call(i,   depth) {
  for (; i > 2; i--) {
    if (text[i] == ")") depth++
    if (text[i] == "(" && --depth == 0) return text[i - 2] == "call"
  }
  return 0
}

# The brace that is closed at token i; 0 where there is none.
function opening(i,   depth) {
  for (; i > 0; i--) {
    if (text[i] == "}") depth++
    if (text[i] == "{" && --depth == 0) return i
  }
  return 0
}

function slip_after_block(i, opened,   at) {
  if (text[opened - 1] == "else") return "p show 1 after } else { .. }"
  at = statement_at(opened)
  if (text[at] == "if") return "a conditional without else"
  for (at = opened; at > 0; at--) if (text[at] == "main") return i > opened ? "something after main" : ""
  return ""
}

# The first token of the statement that has token i within.
function statement_at(i) {
  for (i--; i > 0; i--) if (text[i] ~ /^[;{}]$/) return i + 1
  return 1
}

# Whether token i is within the braces of main or of a procedure.
function is_in_body(i,   at, depth, round, opened) {
  for (at = i - 1; at > 0 && text[at] !~ /^(protocol|service|proc|main)$/; at--);
  if (text[at] !~ /^(proc|main)$/) return 0
  for (at++; at < i; at++) {
    if (text[at] == "(") round++
    if (text[at] == ")") round--
    if (text[at] == "{" && !round) opened = 1
    if (text[at] == "{") depth++
    if (text[at] == "}") depth--
  }
  return opened && depth > 0
}

# Whether token i comes after the beginning of an expression in its statement.
function in_expression(i,   from, at) {
  from = statement_at(i)
  for (at = from; at < i; at++) {
    if (text[at] == "->" || text[at] == "then") return 0
    if (text[at] == ":=" || text[at] == "show") return 1
    if (text[at] == "if" && at + 2 < i) return 1
    if (text[at] == "." && text[at - 1] == "]") return 1
  }
  return 0
}

function has_main(   i) {
  for (i = 1; i <= token_count; i++) if (text[i] == "main") return 1
  return 0
}

# The slip at a character that begins no token; `rest` is the line from there on.
function slip_of_character(rest) {
  if (rest ~ /^\357\273\277/) return "a byte order mark"
  if (rest ~ /^>/) return "> and >="
  if (rest ~ /^%/) return "%"
  if (rest ~ /^'/) return "'..'"
  if (rest ~ /^#/) return "# a comment"
  if (rest ~ /^&/) return "&"
  if (rest ~ /^\\/) return "\\ in a text"
  return ""
}

# Whether some brace is open before token i.
function open_braces(i,   at, depth) {
  for (at = 1; at < i; at++) {
    if (text[at] == "{") depth++
    if (text[at] == "}") depth--
  }
  return depth > 0
}
