# Writes why a unit of an endpoint file can't be linked: the first place where it offers less than the projection, with both texts,
# or the nearest name. Takes the rule, the unit and the path of the projection, and from the environment the name of the endpoint
# file, its path, and that of docs/RULES.md.

BEGIN {
  read_section(ENVIRON["CHOR_RULES"], rule)
  base = read_both(projection, ENVIRON["CHOR_SOURCE"])
  list_units(4, base, mine)
  list_units(base + 4, token_count, theirs)
  fill["name"] = unit
  at = mine[unit]
  facts = rule == "K2" ? nearest_unit(unit) : first_difference(unit, at, theirs[unit])
  printf "%s:%d:%d: %s: %s\n", ENVIRON["CHOR_NAME"], row[at], column[at], rule, filled(message)
  show_line(row[at], column[at])
  if (rule == "K1") printf "    asked: %s\n    given: %s\n", cut(asked), cut(given)
  print_wrapped(facts (facts == "" ? "" : " ") filled(help) " " quoted("chor explain " rule) " has the rule.")
}

# At most 150 bytes of a text.
function cut(said) { said = printable(said); return length(said) > 150 ? substr(said, 1, 148) ".." : said }

# Reads two endpoint files; the tokens of the first come after those of the second. Answers the number of the last token of that.
function read_both(first, second,   i, n, m, words, kinds, rows, columns) {
  read_tokens(first)
  n = token_count
  for (i = 1; i <= n; i++) { words[i] = text[i]; kinds[i] = kind[i]; rows[i] = row[i]; columns[i] = column[i] }
  read_tokens(second)
  m = token_count
  for (i = 1; i <= n; i++) { add_token(words[i], kinds[i], rows[i], columns[i]) }
  return m
}

# The first token of each unit between two tokens, by what a refusal calls it.
function list_units(i, end_at, units) {
  for (; i < end_at; i = unit_end(i)) if (!(unit_name(i) in units)) units[unit_name(i)] = i
}

function unit_name(i) {
  if (text[i] == "procedure") return text[i] " " text[i + 1] " " text[i + 2]
  if (text[i] == "service") return text[i] " " text[i + 1] "[" text[i + 3] "]"
  return text[i] " " text[i + 1]
}

# The unit of the same kind whose name is the least number of letters away, and whether there is any.
function nearest_unit(name,   kind_here, each, best, least, away) {
  kind_here = substr(name, 1, index(name, " "))
  for (each in theirs) {
    if (index(each, kind_here) != 1) continue
    away = distance(each, name)
    if (best == "" || away < least || away == least && each < best) { best = each; least = away }
  }
  if (best == "") return "It has no " kind_here "at all."
  return "The nearest name there is " quoted(best) "."
}

# How many letters are to be added, dropped or changed to make one word of the other.
function distance(a, b,   i, j, old, new, least) {
  for (j = 0; j <= length(b); j++) old[j] = j
  for (i = 1; i <= length(a); i++) {
    new[0] = i
    for (j = 1; j <= length(b); j++) {
      least = old[j - 1] + (substr(a, i, 1) != substr(b, j, 1))
      if (old[j] + 1 < least) least = old[j] + 1
      if (new[j - 1] + 1 < least) least = new[j - 1] + 1
      new[j] = least
    }
    for (j = 0; j <= length(b); j++) old[j] = new[j]
  }
  return old[length(b)]
}

# Sets `at` to the place of the first difference, `asked` and `given` to the texts there, and answers what it is.
function first_difference(name, i, j) {
  asked = words_between(j, head_end(j))
  given = words_between(i, head_end(i))
  if (name ~ /^channel /) return "The channel has other roles, or has them in another order."
  if (name ~ /^procedure / && spaced(i, head_end(i)) != spaced(j, head_end(j))) return "The procedure has other sessions."
  return less_in(head_end(i) + 1, head_end(j) + 1)
}

# The token with which what comes before the body ends.
function head_end(i) { for (; text[i] != "{" && text[i] != ";" && i < token_count; i++); return i }

# Where the code at token i offers less than that at token j.
function less_in(i, j) {
  while (i < token_count) {
    if (text[i] != text[j]) return differs(i, j, "Another act is asked here.")
    if (text[i] == "branch") return less_in_branch(i, j)
    if (text[i] == "if") return less_in_conditional(i, j)
    if (node_form(i) != node_form(j)) return differs(i, j, why_other(i, j))
    if (text[i] == "call" || text[i] == "end") return ""
    i = after_node(i)
    j = after_node(j)
  }
  return ""
}

function less_in_branch(i, j,   label, own, said) {
  if (spaced(i, i + 3) != spaced(j, j + 3)) return differs(i, j, "A label from elsewhere is asked here.")
  for (label = j + 4; text[label] != "}"; label = closing(label + 1) + 1) {
    own = arm_of(i, text[label])
    if (!own) return differs(i, j, "This branch has no arm for " quoted(text[label]) ".")
    said = less_in(own + 2, label + 2)
    if (said != "") return said
  }
  return ""
}

# The token of a label in the branch at token i; 0 where it hasn't that.
function arm_of(i, label,   own) {
  for (own = i + 4; text[own] != "}"; own = closing(own + 1) + 1) if (text[own] == label) return own
  return 0
}

function less_in_conditional(i, j,   open, their_open, said) {
  open = head_end(i)
  their_open = head_end(j)
  if (form_of(i + 1, open) != form_of(j + 1, their_open)) return differs(i, j, "Another condition is asked here.")
  said = less_in(open + 1, their_open + 1)
  return said != "" ? said : less_in(closing(open) + 3, closing(their_open) + 3)
}

function differs(i, j, said) {
  at = i
  asked = brief_node(j)
  given = brief_node(i)
  return said
}

# Two nodes that begin with one word differ in a name, or in what is computed.
function why_other(i, j) {
  if (text[i] == "join" && text[i + 1] text[i + 3] != text[j + 1] text[j + 3]) return "Another role is asked here."
  if (text[i] ~ /^(join|gain)$/ || text[i] ~ /^(send|recv|pick|give|call)$/ && text[i + 1] != text[j + 1]) return "The names of sessions count."
  if (text[i] ~ /^(set|recv|host)$/) return "The names of variables count, and so do expressions."
  return text[i] ~ /^(send|show)$/ ? "Another value is asked here." : "Another act is asked here."
}

# A node as it is written; of what may follow in braces only that something does.
function brief_node(i,   label, said) {
  if (text[i] == "branch") {
    for (label = i + 4; text[label] != "}"; label = closing(label + 1) + 1) said = said text[label] " { .. } "
    return words_between(i, i + 4) " " said "}"
  }
  if (text[i] == "if") return words_between(i, head_end(i)) " { .. } else { .. }"
  return words_between(i, node_end(i))
}

# The token after a node that isn't a branch or a conditional.
function node_end(i) { for (i++; text[i] != ";" && text[i] != "}" && i < token_count; i++); return i }

# How many names a node has before its expression.
function names_of(i) { return text[i] == "send" ? 2 : text[i] == "set" ? 1 : text[i] == "host" ? 2 : text[i] == "show" ? 0 : -1 }

# A node with its expressions in a form in which parentheses and leading zeros don't count.
function node_form(i,   n, form) {
  n = names_of(i)
  if (n < 0) return spaced(i, node_end(i))
  form = spaced(i, i + n + 1) form_of(i + n + 1 + (text[i] == "host"), node_end(i))
  while (text[i] == "host" && text[next_token] == "," && next_token < past_token) { next_token++; form = form ", " form_at(1) }
  return form
}

function form_of(first, last) { next_token = first; past_token = last; return form_at(1) }

# Like sort_at of expressions.awk: each level of operators binds more strongly than the one before.
function form_at(level,   left, sign, right) {
  if (level == 6) return form_of_operand()
  left = form_at(level + 1)
  while (next_token < past_token && level_of(text[next_token]) == level) {
    sign = text[next_token++]
    right = form_at(level + 1)
    left = "(" left " " sign " " right ")"
  }
  return left
}

function form_of_operand(   word, form) {
  word = text[next_token++]
  if (word == "-" || word == "!") { form = form_of_operand(); return "(" word form ")" }
  if (word == "(") { form = form_at(1); next_token++; return form }
  if (word ~ /^0[0-9]/) { sub(/^0+/, "", word); if (word == "") word = "0" }
  return word
}
