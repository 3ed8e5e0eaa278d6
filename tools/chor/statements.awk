# The statements on the way to a place, and what is known there. Walking sets
#   sessions: those that were begun; protocol_of[k], state_of[k], held_roles[k], holder[k,R]
#   set_by[p]: the variables that process p has set
#   named: the processes that some statement named; starts: the tokens of the starts on the way
# Of the statement at hand, s_form is start, value, label, gift, variable, host, show, if, call or end, and the others are
# its parts: s_from, s_role, s_to, s_to_role, s_session, s_label, s_given, s_given_role, s_variable, s_channel,
# s_parts, s_new; its expression is s_first to before s_last, and s_next is the token after it.

function read_statement(i,   at) {
  s_from = s_role = s_to = s_to_role = s_session = s_label = s_given = s_given_role = s_variable = s_channel = ""
  s_first = s_last = 0
  if (text[i] == "end") { s_form = "end"; s_next = i + 1; return }
  if (text[i] == "call") { read_call(i); return }
  if (text[i] == "if") {
    s_form = "if"; s_from = text[i + 1]; s_first = i + 3
    for (at = s_first; at < token_count && text[at] != "{"; at++);
    s_last = at; s_next = at + 1
    return
  }
  for (at = i; at < token_count && text[at] != ";"; at++);
  s_next = at + 1
  if (text[i] == "start") { read_start(i); return }
  s_from = text[i]
  if (text[i + 1] == "show") { s_form = "show"; s_first = i + 2; s_last = at; return }
  if (text[i + 1] == ".") {
    s_variable = text[i + 2]
    s_form = text[i + 4] == "host" ? "host" : "variable"
    s_first = s_form == "host" ? i + 7 : i + 4
    s_last = s_form == "host" ? at - 1 : at
    return
  }
  read_message(i, at)
}

function read_message(i, end_at,   at) {
  s_role = text[i + 2]
  for (at = i + 4; at < end_at && text[at] != "->"; at++);
  if (text[i + 4] == ".") { s_form = "value"; s_first = i + 5; s_last = at }
  s_to = text[at + 1]
  s_to_role = text[at + 3]
  if (text[at + 5] == ".") { s_variable = text[at + 6]; s_session = text[at + 8]; return }
  s_session = text[at + 6]
  if (text[at + 7] == ".") { s_form = "label"; s_label = text[at + 8]; return }
  s_form = "gift"
  s_given = text[at + 8]
  s_given_role = text[at + 10]
}

function read_start(i,   at) {
  s_form = "start"
  s_channel = text[i + 1]
  s_session = text[i + 3]
  s_parts = s_new = ""
  delete part_role
  in_new = 0
  for (at = i + 6; at < s_next - 1; at++) {
    if (text[at] == "new") { in_new = 1; continue }
    if (text[at + 1] != "[") continue
    if (in_new) s_new = s_new " " text[at]
    else s_parts = s_parts " " text[at]
    part_role[text[at]] = text[at + 2]
    at += 3
  }
}

function read_call(i,   at, end_at) {
  s_form = "call"
  s_label = text[i + 1]
  s_parts = s_new = ""
  end_at = closing(i + 2)
  at = read_names(i + 3)
  s_parts = names
  if (text[at] == ";") { read_names(at + 1); s_new = names }
  s_next = end_at + 1
}

# Begins with what is known where a body begins.
function enter_body(body,   list, n, i, j, m, roles_here, variables, k) {
  sessions = named = starts = in_scope = ""
  delete set_by; delete sort_set; delete state_of; delete holder; delete held_roles; delete protocol_of
  n = split(processes_of[body], list, " ")
  for (i = 1; i <= n; i++) {
    set_by[list[i]] = asked[body, list[i]]
    m = split(asked[body, list[i]], variables, " ")
    for (j = 1; j <= m; j++) sort_set[list[i], variables[j]] = sort_asked[body, list[i], variables[j]]
  }
  in_scope = processes_of[body]
  n = split(sessions_of[body], list, " ")
  for (i = 1; i <= n; i++) {
    k = list[i]
    sessions = sessions " " k
    protocol_of[k] = asked_protocol[body, k]
    state_of[k] = asked_state[body, k]
    held_roles[k] = asked_roles[body, k]
    m = split(asked_roles[body, k], roles_here, " ")
    for (j = 1; j <= m; j++) holder[k, roles_here[j]] = asked_holder[body, k, roles_here[j]]
  }
}

# Walks from the beginning of a body to the statement that begins at token `place`, or has it within.
function walk_to(body, place,   i, close_at) {
  enter_body(body)
  i = body_open[body] + 1
  while (i < place) {
    read_statement(i)
    if (s_form == "end" || s_form == "call") return i
    if (s_next > place && s_form != "if") return i
    if (s_form == "if") {
      if (s_next - 1 > place) return i
      named = named " " s_from
      close_at = closing(s_next - 1)
      i = place < close_at ? s_next : close_at + 3
      continue
    }
    pass_statement(i)
    i = s_next
  }
  read_statement(i)
  return i
}

# Goes past the statement at hand.
function pass_statement(i,   key) {
  named = named " " s_from " " s_to
  key = protocol_of[s_session] SUBSEP state_of[s_session]
  if (s_form == "start") pass_start(i)
  else if (s_form == "variable") set_variable(s_from, sort_of(s_from, s_first, s_last))
  else if (s_form == "host") set_variable(s_from, "int")
  else if (s_form == "value") set_variable(s_to, step_payload[key])
  else if (s_form == "gift") holder[s_given, s_given_role] = s_to
  if (s_form == "value" || s_form == "gift") state_of[s_session] = step_next[key]
  if (s_form == "label") state_of[s_session] = label_next[key, s_label]
}

function set_variable(process, sort) {
  set_by[process] = set_by[process] " " s_variable
  sort_set[process, s_variable] = sort
}

function pass_start(i,   list, n, j) {
  named = named s_parts s_new
  starts = starts " " i
  sessions = sessions " " s_session
  in_scope = in_scope s_new
  protocol_of[s_session] = channel_protocol[s_channel]
  state_of[s_session] = first_state[protocol_of[s_session]]
  held_roles[s_session] = ""
  n = split(s_parts s_new, list, " ")
  for (j = 1; j <= n; j++) {
    held_roles[s_session] = held_roles[s_session] " " part_role[list[j]]
    holder[s_session, part_role[list[j]]] = list[j]
  }
}
