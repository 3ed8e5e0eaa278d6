# Writes why a line of a log doesn't match by the protocols. Takes its number and the path of the local types, and from the
# environment what log.awk takes and the path of the source.

BEGIN {
  read_section(ENVIRON["CHOR_RULES"], "unmatched")
  read_tokens(ENVIRON["CHOR_CHOREOGRAPHY"])
  read_declarations()
  read_types(types)
  read_log()
  for (n = 1; n < number; n++) speak(lines[n])
  facts = fault_of_form(lines[number], number)
  print_unmatched(facts == "" ? fault_of_event(lines[number]) : facts, other_help)
}

# The states of each local type: type_of[P,R,s] is what a line says after its number.
function read_types(path,   line, parts, place) {
  while ((getline line < path) > 0) {
    place = index(line, ": ")
    if (place) type_of[parts[1], parts[2], substr(line, 1, place - 1)] = substr(line, place + 2)
    else split(substr(line, 7), parts, "@")
  }
  close(path)
}

# Splits the line of an event into e_kind, e_session (a number, or ""), e_own and e_other (the role that acts and the one with
# which), and e_load; a start has e_channel and e_roles.
function read_event(line,   words, parties, parts, n, j) {
  n = split(line, words, " ")
  e_kind = words[2]
  e_session = e_own = e_other = e_load = e_channel = e_roles = ""
  if (words[4] !~ /^#/) return
  e_session = substr(words[4], 2)
  if (e_kind == "start") {
    e_channel = words[3]
    for (j = 5; j <= n; j++) { split(words[j], parts, "="); e_roles = e_roles (j > 5 ? " " : "") parts[1] }
    return
  }
  split(words[5], parties, ">")
  e_own = is_put(e_kind) ? parties[1] : parties[2]
  e_other = is_put(e_kind) ? parties[2] : parties[1]
  e_load = line
  sub(/^[^ ]+ [^ ]+ [^ ]+ [^ ]+ [^ ]+ /, "", e_load)
}

function is_put(act) { return act ~ /^(send|pick|give)$/ }

function lane_of_event() { return e_session SUBSEP (is_put(e_kind) ? e_own SUBSEP e_other : e_other SUBSEP e_own) }

# What a role of a session does next, as its local type writes it.
function next_of(session, role) { return type_of[protocol_of[session], role, state_of[session, role] + 0] }

# Lets the roles go on by an event that conforms.
function speak(line,   words, n, j, key) {
  read_event(line)
  if (e_session == "") return
  if (e_kind == "start") { protocol_of[e_session] = channel_protocol[e_channel]; sessions_started++; return }
  key = lane_of_event()
  if (is_put(e_kind)) queue[key] = queue[key] e_load "\n"
  else queue[key] = substr(queue[key], index(queue[key], "\n") + 1)
  n = split(next_of(e_session, e_own), words, " ")
  if (e_kind !~ /^(pick|branch)$/) { state_of[e_session, e_own] = words[n]; return }
  for (j = 3; j < n; j += 2) if (words[j] == e_load) { state_of[e_session, e_own] = words[j + 1]; return }
}

# Why an event doesn't conform after those before it; of a last line, which role has something left to do.
function fault_of_event(line,   first, said) {
  if (is_last(line)) return role_left()
  read_event(line)
  if (e_kind == "start") return fault_of_start()
  if (e_session == "") return "It isn't written as an event of a transcript."
  if (!(e_session in protocol_of)) return "Session #" e_session " hasn't started."
  if (!has_word(roles[protocol_of[e_session]], e_own))
    return sprintf("%s has no role %s: it has %s.", quoted(protocol_of[e_session]), quoted(e_own), listed(roles[protocol_of[e_session]]))
  said = sprintf("By %s, role %s of #%s %s next.", quoted(protocol_of[e_session]), quoted(e_own), e_session, does(next_of(e_session, e_own)))
  if (is_put(e_kind) || !is_next()) return said
  first = substr(queue[lane_of_event()], 1, index(queue[lane_of_event()], "\n") - 1)
  if (first == e_load) return said
  return said " " (first == "" ? "Nothing that was sent there is left." : "The first message there is " quoted(first) ".")
}

# Whether the role does an act of this kind next, with this other role.
function is_next(   words, act) {
  split(next_of(e_session, e_own), words, " ")
  act = e_kind == "give" ? "send" : e_kind == "gain" ? "recv" : e_kind
  return words[1] == act && words[2] == e_other
}

# The words of a state of a local type.
function does(state,   words, n, j, labels) {
  n = split(state, words, " ")
  if (words[1] == "end") return "has nothing to do"
  for (j = 3; j < n; j += 2) labels = labels " " words[j]
  if (words[1] == "pick") return "selects " any_of(labels) " for " quoted(words[2])
  if (words[1] == "branch") return "learns " any_of(labels) " from " quoted(words[2])
  return (words[1] == "send" ? "sends " : "receives ") quoted(words[3]) (words[1] == "send" ? " to " : " from ") quoted(words[2])
}

function fault_of_start(   all) {
  if (!(e_channel in channel_protocol)) return "No channel is called " quoted(e_channel) "."
  if (e_session != sessions_started + 0) return "The next session has the number #" sessions_started + 0 "."
  all = active_roles[e_channel] (service_roles[e_channel] == "" ? "" : " " service_roles[e_channel])
  return "A start of " quoted(e_channel) " names " listed(all) ", in this order."
}

function role_left(   session, list, n, j) {
  for (session = 0; session < sessions_started; session++) {
    n = split(roles[protocol_of[session]], list, " ")
    for (j = 1; j <= n; j++)
      if (next_of(session, list[j]) != "end")
        return sprintf("It isn't the end: by %s, role %s of #%s %s next.", quoted(protocol_of[session]), quoted(list[j]), session,
          does(next_of(session, list[j])))
  }
  return ""
}
