# What can be known for sure about a refusal from the source itself; of tokens, limits, protocols and views here. Each function
# answers sentences, and fills the words that the rule's message takes.

function facts_of(rule, i) {
  if (rule == "L1" || rule == "L5") return facts_of_bytes(rule)
  if (rule == "P1" || rule == "E1") return ""
  if (rule == "P2") { fill["kind"] = text[i] == "{" ? "open block" : "token of an expression"; return "" }
  if (rule == "P3" && text[i - 1] == "capacity") return "A capacity is from 1 to 1,000,000."
  if (rule == "P3" || rule == "E4") { fill["kind"] = rule == "P3" ? limited_thing(i) : limited_endpoint_thing(i); return "" }
  if (rule == "E2") return unknown_in_endpoints(i)
  if (rule == "E3") { fill["name"] = procedure_before(i); return "" }
  read_declarations()
  if (rule == "N1") return unknown_name(i)
  if (rule == "N2") return name_twice(i)
  if (rule == "N3") return wrong_list(i)
  if (rule == "G1") return unknown_state(i)
  if (rule == "G3" || rule ~ /^V/) return facts_of_role(rule, i)
  if (rule ~ /^[TUM]/) return facts_of_statement(rule, i)
  return ""
}

function facts_of_bytes(rule,   rest) {
  rest = substr(lines[place_row], place_column)
  if (rule == "L5") {
    fill["kind"] = rest ~ /^"/ ? "text" : "word"
    kind_of(rest)
    fill["length"] = RLENGTH - (rest ~ /^"/ ? 2 : 0)
  } else if (rest ~ /^\\/) fill["word"] = printable(substr(rest, 1, 2))
  return ""
}

# Of what a source has too many at token i.
function limited_thing(i,   at, depth, unit, round, semicolon) {
  for (at = 1; at < i; at++) {
    if (depth == 0 && text[at] ~ /^(protocol|service|proc|main)$/) { unit = text[at]; round = semicolon = 0 }
    if (text[at] == "{") depth++
    if (text[at] == "}") depth--
    if (text[at] == "(") round++
    if (text[at] == ")") round--
    if (text[at] == ";" && round == 1) semicolon = 1
  }
  if (unit == "service") return "role of a service"
  if (unit == "protocol") return round ? "role of a protocol" : depth == 1 ? "state of a protocol" : "label of a choice"
  if (unit == "main" && round && !depth) return "process of main"
  if (unit == "proc" && round && !depth && round == 2) return "variable of a parameter"
  if (unit == "proc" && round && !depth) return semicolon ? "session of a procedure" : "parameter of a procedure"
  return "statement on one path"
}

function limited_endpoint_thing(i,   at) {
  if (text[i - 1] == "process") return "process"
  for (at = i - 1; at > 0; at--) {
    if (text[at] ~ /^[{};]$/) break
    if (text[at] == "channel") return "role of a channel"
    if (text[at] == "procedure" || text[at] == "call") return "session of a procedure"
  }
  return text[i - 1] == ";" || text[i - 1] == "{" ? "node on one path" : "token of an expression"
}

function procedure_before(i) {
  for (; i > 0; i--) if (text[i] == "procedure") return text[i + 1]
  return ""
}

function unknown_state(i,   at, protocol) {
  protocol = text[i - 1] == "." ? text[i - 2] : ""
  for (at = i; protocol == "" && at > 0; at--) if (text[at] == "protocol") protocol = text[at + 1]
  fill["protocol"] = protocol
  if (count_of(states[protocol]) > 12) return ""
  return "It has " (count_of(states[protocol]) == 1 ? "the state " : "the states ") listed(states[protocol]) "."
}

function facts_of_role(rule, i,   at, protocol) {
  for (at = i; at > 0 && protocol == ""; at--) if (text[at] == "protocol") protocol = text[at + 1]
  fill["protocol"] = protocol
  return rule == "V1" || rule == "V2" ? view_fault(rule, protocol, text[i]) : ""
}

# What is wrong with the name at token i of an endpoint file, by the node or the unit in which it is.
function unknown_in_endpoints(i,   before) {
  before = text[i - 1]
  if (before == "[" && text[i - 3] == "join") return "It is no active role of " quoted(text[i - 2]) "."
  if (before == "[" && text[i - 3] == "service") return "It is no service role of " quoted(text[i - 2]) "."
  if (before == "(" && text[i - 6] == "join" || text[i - 3] == "gain") return "A session is called so already."
  if (before ~ /^(send|recv|pick|give|gain|branch)$/ || text[i - 3] == "give")
    return "No session is called " quoted(text[i]) " here."
  if (before == "channel" || before == "process") return "There is another " before " of this name."
  if (before == "join") return "There is no such channel."
  if (before == "service") return "There is no such channel, or this role of it has its service already."
  if (before == "procedure") return "There is another procedure of this name for the same parameter."
  if (before == "call") return "There is no such procedure for this parameter, or it has another number of sessions."
  if (text[i - 2] == "host") return "There is no such host function."
  return ""
}
