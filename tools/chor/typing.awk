# What can be known for sure about a refusal at a statement, for the rules of types, of guarded procedures, of linear channels and
# of merging. All statements before the place are without fault, so what they lead to is known.

function facts_of_statement(rule, i,   body) {
  if (rule == "M2") return starts_of(text[i])
  body = body_around(i)
  if (body == "") return facts_of_head(rule, i)
  walk_to(body, i)
  fill["process"] = s_from
  fill["session"] = s_session
  fill["protocol"] = protocol_of[s_session]
  fill["state"] = state_of[s_session]
  if (rule == "T1") return wrong_holder()
  if (rule == "T2") return "The protocol has: " step_here(s_session) "."
  if (rule == "T3") return wrong_sort()
  if (rule == "T4") return wrong_label()
  if (rule == "T5") return wrong_gift()
  if (rule == "T6") return open_sessions()
  if (rule == "T7") return wrong_arguments()
  if (rule == "T8") return unset_here()
  if (rule == "T9") return two_roles()
  if (rule == "U1") return unnamed_arguments()
  if (rule == "U2") return unordered_start(body, i)
  if (rule == "M1") return branches_differ(who, i)
  return ""
}

# In the head of a procedure only T9 is asked: a process twice in one session parameter.
function facts_of_head(rule, i,   body, list, n, b) {
  fill["session"] = text[i]
  n = split(bodies, list, " ")
  for (b = 1; b <= n; b++) if (i < body_open[list[b]] && has_word(sessions_of[list[b]], text[i])) break
  fill["process"] = twice_among(held_in_head(list[b], text[i]))
  return ""
}

function held_in_head(body, session,   list, n, j, said) {
  n = split(asked_roles[body, session], list, " ")
  for (j = 1; j <= n; j++) said = said " " asked_holder[body, session, list[j]]
  return said
}

# The first word that is in a list twice; "" where there is none.
function twice_among(words,   list, n, i, before) {
  n = split(words, list, " ")
  for (i = 1; i <= n; i++) {
    if (has_word(before, list[i])) return list[i]
    before = before " " list[i]
  }
  return ""
}

function step_here(session) { return quoted(step_said[protocol_of[session], state_of[session]]) }

function holders_of(session,   list, n, j, said) {
  n = split(held_roles[session], list, " ")
  for (j = 1; j <= n; j++)
    said = said (j == 1 ? "" : j == n ? " and " : ", ") quoted(list[j]) " is held by " quoted(holder[session, list[j]])
  return n == 0 ? "" : "In " quoted(session) " " said "."
}

function wrong_holder() {
  if (holder[s_session, s_role] != s_from) { fill["process"] = s_from; fill["role"] = s_role }
  else if (holder[s_session, s_to_role] != s_to) { fill["process"] = s_to; fill["role"] = s_to_role }
  else { fill["process"] = s_from; fill["role"] = s_given_role; fill["session"] = s_given }
  return holders_of(fill["session"])
}

function wrong_sort(   sort, wanted) {
  sort = sort_of(s_from, s_first, s_last)
  if (s_form == "host") return "A host function takes two whole numbers."
  if (sort_fault != "") return upper_first(sort_fault) "."
  if (s_form == "if") return "A condition is a truth value, and this is " named_sort(sort) "."
  wanted = step_payload[protocol_of[s_session], state_of[s_session]]
  return sprintf("This is %s, and the protocol sends %s: %s.", named_sort(sort), quoted(wanted), step_here(s_session))
}

function upper_first(said) { return toupper(substr(said, 1, 1)) substr(said, 2) }

function wrong_label() {
  fill["label"] = s_label
  return "The protocol has: " step_here(s_session) "."
}

function wrong_gift() {
  return sprintf("The protocol has %s, and here this is role %s of %s, which is in state %s of %s.", step_here(s_session),
    quoted(s_given_role), quoted(s_given), quoted(state_of[s_given]), quoted(protocol_of[s_given]))
}

# The sessions that aren't at their end, those that a call passes left out.
function open_sessions(   list, n, j, said) {
  n = split(sessions, list, " ")
  for (j = 1; j <= n; j++) {
    if (s_form == "call" && has_word(s_new, list[j])) continue
    if ((protocol_of[list[j]] SUBSEP state_of[list[j]]) in step_from)
      said = said (said == "" ? "" : " ") sprintf("%s is in state %s: %s.", quoted(list[j]), quoted(state_of[list[j]]), step_here(list[j]))
  }
  return said
}

function wrong_arguments(   again, list, asked_list, n, m, i, j, said, given) {
  fill["procedure"] = s_label
  again = twice_among(s_parts)
  if (again == "") again = twice_among(s_new)
  if (again != "") return quoted(again) " is passed twice."
  n = split(processes_of[s_label], asked_list, " ")
  split(s_parts, list, " ")
  for (i = 1; i <= n; i++) {
    said = wrong_variables(asked_list[i], list[i])
    if (said != "") return said
    given[asked_list[i]] = list[i]
  }
  n = split(sessions_of[s_label], asked_list, " ")
  split(s_new, list, " ")
  for (i = 1; i <= n; i++) {
    said = wrong_session(asked_list[i], list[i], given)
    if (said != "") return said
  }
  return ""
}

function wrong_variables(parameter, process,   list, n, i, wanted) {
  n = split(asked[s_label, parameter], list, " ")
  for (i = 1; i <= n; i++) {
    wanted = sort_asked[s_label, parameter, list[i]]
    if (!has_word(set_by[process], list[i]))
      return sprintf("%s asks that %s has a variable %s, and %s hasn't set it.", quoted(s_label), quoted(parameter),
        quoted(list[i]), quoted(process))
    if (sort_set[process, list[i]] != wanted)
      return sprintf("%s asks for %s in %s, and %s has %s there.", quoted(s_label), named_sort(wanted), quoted(list[i]),
        quoted(process), named_sort(sort_set[process, list[i]]))
  }
  return ""
}

function wrong_session(parameter, session, given,   list, n, i, key, wanted) {
  key = s_label SUBSEP parameter
  wanted = asked_protocol[key] "." asked_state[key]
  if (wanted != protocol_of[session] "." state_of[session])
    return sprintf("%s asks for a session in %s, and %s is in %s.", quoted(s_label), quoted(wanted), quoted(session),
      quoted(protocol_of[session] "." state_of[session]))
  n = split(asked_roles[key], list, " ")
  for (i = 1; i <= n; i++)
    if (holder[session, list[i]] != given[asked_holder[key, list[i]]])
      return sprintf("%s asks that role %s is held by %s, and in %s it is held by %s.", quoted(s_label), quoted(list[i]),
        quoted(given[asked_holder[key, list[i]]]), quoted(session), quoted(holder[session, list[i]]))
  return ""
}

function unset_here(   variable, process, others) {
  variable = fill["variable"] = unset_variable(s_from, s_first, s_last)
  for (process in set_by) if (has_word(set_by[process], variable)) others = others " " process
  if (others == "") return ""
  return sprintf("%s of %s is another variable: each process has its own.", quoted(variable), listed(ordered(others)))
}

function two_roles(   list, n, j) {
  if (s_form == "start") {
    fill["process"] = twice_among(s_parts s_new)
    return ""
  }
  fill["process"] = s_to
  fill["session"] = s_given
  return holders_of(s_given)
}

function unnamed_arguments(   list, n, j, said) {
  n = split(s_parts, list, " ")
  for (j = 1; j <= n; j++) if (!has_word(named, list[j])) said = said " " list[j]
  fill["process"] = listed(said)
  fill["procedure"] = s_label
  return ""
}

# In main it is known who has heard of the start before; in a procedure it depends on its calls.
function unordered_start(body, i,   channel, list, n, j, heard, missing) {
  channel = fill["channel"] = s_channel
  if (body != "main") return ""
  heard = processes_of["main"]
  heard = heard_before(channel, i, heard)
  read_statement(i)
  n = split(s_parts, list, " ")
  for (j = 1; j <= n; j++) if (!has_word(heard, list[j])) missing = missing " " list[j]
  if (missing == "" || !last_start) return ""
  return sprintf("%s %s heard of the start in line %d.", listed(missing), count_of(missing) == 1 ? "hasn't" : "haven't", row[last_start])
}

# Who has heard of the last start of a channel before token `place`, along the way to it in main.
function heard_before(channel, place, heard,   i, close_at) {
  for (i = body_open["main"] + 1; i < place; ) {
    read_statement(i)
    if (s_form == "if") {
      close_at = closing(s_next - 1)
      i = place < close_at ? s_next : close_at + 3
      continue
    }
    if (s_form == "start" && s_channel == channel) { heard = s_parts s_new; last_start = i }
    else if (s_form == "start" && shares(s_parts, heard)) heard = heard s_parts s_new
    else if (s_to != "" && has_word(heard, s_from)) heard = heard " " s_to
    i = s_next
  }
  return heard
}

function shares(words, others,   list, n, j) {
  n = split(words, list, " ")
  for (j = 1; j <= n; j++) if (has_word(others, list[j])) return 1
  return 0
}

function starts_of(channel,   i, said, n) {
  for (i = 1; i < token_count; i++)
    if (text[i] == "start" && text[i + 1] == channel) { n++; said = said " " row[i] }
  if (n < 2) return ""
  gsub(/`/, "", said)
  said = listed(said)
  gsub(/`/, "", said)
  return "It is started in lines " said "."
}
