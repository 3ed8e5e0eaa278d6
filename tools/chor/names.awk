# What can be known for sure about a refusal by a rule of names. Each function answers sentences, and fills the words that the
# rule's message takes.

# Which kind of name token i is.
function kind_of_name(i,   before) {
  before = text[i - 1]
  if (before == "start") return "channel"
  if (before == "call") return "procedure"
  if (before == "host") return "host function"
  if (before == "@" || before == "[") return "role"
  if (is_in_body(i) && text[statement_at(i)] == "start") return "process"
  if (text[i - 3] == "service" || text[i + 1] == "." && before == ":" && !is_in_body(i)) return "protocol"
  if (body_around(i) == "" && (text[i + 1] == "->" || before == "->" || text[i + 1] == "=")) return "role"
  if (before == ":" || before == "(" && text[i + 1] == "[" || in_sessions_of_call(i)) return "session"
  return "process"
}

# Whether token i is one of the sessions that a call passes.
function in_sessions_of_call(i) {
  for (i--; text[i] == "," || kind[i] == "word"; i--);
  if (text[i] != ";") return 0
  for (i--; text[i] == "," || kind[i] == "word"; i--);
  return text[i] == "(" && text[i - 2] == "call"
}

function unknown_name(i,   kind_here, body, others) {
  kind_here = fill["kind"] = kind_of_name(i)
  if (kind_here == "role") return roles_there(i)
  body = body_around(i)
  if (body == "" || kind_here != "process" && kind_here != "session") return ""
  walk_to(body, i)
  others = kind_here == "process" ? sessions : in_scope
  if (has_word(others, text[i])) return quoted(text[i]) " is a " (kind_here == "process" ? "session" : "process") "."
  return "In scope here: " listed(kind_here == "process" ? in_scope : sessions, "no " kind_here) "."
}

# The roles among which the one at token i isn't: those of the protocol that a payload or a session parameter names, or of the
# protocol that contains it.
function roles_there(i,   protocol, at) {
  if (text[i - 1] == "@") protocol = text[i - 4]
  for (at = i - 1; protocol == "" && at > 0 && text[at] != "protocol"; at--)
    if (text[i + 1] == "=" && text[at] == "{") protocol = text[at - 3]
  if (protocol == "") protocol = text[at + 1]
  if (!(protocol in roles)) return ""
  return quoted(protocol) " has " (count_of(roles[protocol]) == 1 ? "the role " : "the roles ") listed(roles[protocol]) "."
}

# Where the name at token i is before: as the name of another unit of its kind, in its list, or bound on the way to it.
function name_twice(i,   at, unit, body) {
  unit = text[i - 1]
  if (unit ~ /^(protocol|service|proc)$/) {
    for (at = i - 2; at > 1; at--)
      if (text[at] == text[i] && text[at - 1] == unit) return "It is declared in line " row[at] " too."
    return ""
  }
  body = body_around(i)
  if (body != "") return bound_before(body, i)
  for (at = i - 1; at > 0; at--) {
    if (text[at] ~ /^(main|proc|protocol)$/) break
    if (text[at] == text[i] && text[at - 1] ~ /^[(,{;]$/) return "It is there in line " row[at] " too."
  }
  if (text[i] in channel_at && has_word(sessions_of[head_around(i)], text[i])) return channel_of_name(i)
  return ""
}

function channel_of_name(i) { return quoted(text[i]) " is the name of a channel (line " row[channel_at[text[i]]] ")." }

# The procedure whose head contains token i.
function head_around(i) {
  for (; i > 1; i--) if (text[i - 1] == "proc") return text[i]
  return "main"
}

function bound_before(body, i,   place, list, n, j) {
  if (text[i] in channel_at && text[i - 1] == "(" && text[i - 3] == "start") return channel_of_name(i)
  place = walk_to(body, i)
  n = split(starts, list, " ")
  for (j = n; j > 0; j--) {
    read_statement(list[j])
    if (s_session == text[i] || has_word(s_new, text[i])) return "It is bound in line " row[list[j]] " already."
  }
  if (has_word(processes_of[body] sessions_of[body], text[i])) return "It is listed where " quoted(body) " begins."
  return ""
}

function wrong_list(i,   word, protocol) {
  word = text[i]
  if (text[i - 1] == "service") {
    protocol = text[i + 2]
    return quoted(protocol) " has " (count_of(roles[protocol]) == 1 ? "the role " : "the roles ") listed(roles[protocol]) "."
  }
  if (text[i - 1] == "start")
    return sprintf("%s starts with %s%s, in this order.", quoted(word), listed(active_roles[word], "nobody"), \
      service_roles[word] == "" ? "" : ", and after " quoted("new") " with " listed(service_roles[word]))
  return sprintf("%s takes %s and %s.", quoted(word), counted(count_of(processes_of[word]), "process", "processes"), \
    counted(count_of(sessions_of[word]), "session", "sessions"))
}

function counted(n, one, many) { return (n == 0 ? "no" : n) " " (n == 1 ? one : many) }
