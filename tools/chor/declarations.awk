# What a source declares, read from its tokens; the source keeps the grammar. A list of names is a text with spaces between.
#   protocols: roles[P], first_state[P], states[P]; of each state step_from, step_to, step_payload, step_next, step_labels,
#     label_next[P,s,l], and step_said[P,s], as it is written
#   channels: channel_protocol[a], active_roles[a], service_roles[a]
#   bodies: bodies lists main and the procedures; body_open[F] is the token of its brace, processes_of[F], sessions_of[F],
#     asked[F,p] the variables of a parameter, sort_asked[F,p,x], asked_protocol[F,k], asked_state[F,k], asked_roles[F,k],
#     asked_holder[F,k,R]

function read_declarations(   i) {
  i = 1
  while (i < token_count) {
    if (text[i] == "protocol") i = read_protocol(i + 1)
    else if (text[i] == "service") i = read_service(i + 1)
    else if (text[i] == "proc") i = read_head(text[i + 1], i + 2)
    else if (text[i] == "main") i = read_head("main", i + 1)
    else i++
  }
}

# Appends the names from token i on to what `names` has, up to a token that closes the list; answers the number of that.
function read_names(i) {
  names = ""
  for (; i < token_count && text[i] != ")" && text[i] != "|" && text[i] != ";"; i++)
    if (text[i] != ",") names = names (names == "" ? "" : " ") text[i]
  return i
}

function read_protocol(i,   protocol, end_at, known) {
  protocol = text[i]
  known = protocol in first_state
  i = read_names(i + 2)
  end_at = closing(i + 1)
  if (known) return end_at + 1
  roles[protocol] = names
  protocols = protocols " " protocol
  first_state[protocol] = text[i + 2]
  for (i += 2; i < end_at; ) i = read_state(protocol, i)
  return end_at + 1
}

function read_state(protocol, i,   state, from, key) {
  state = text[i]
  key = protocol SUBSEP state
  states[protocol] = states[protocol] " " state
  from = i
  if (text[i + 2] != "end") {
    step_from[key] = text[i + 2]
    step_to[key] = text[i + 4]
    if (text[i + 5] == "{") read_choice(protocol, state, i + 6)
  }
  for (; i < token_count && text[i] != ";"; i++)
    if (text[i] == "then" && text[from + 5] == ":") {
      step_payload[key] = words_between(from + 6, i)
      step_next[key] = text[i + 1]
    }
  step_said[key] = words_between(from, i)
  return i + 1
}

function read_choice(protocol, state, i) {
  for (; i < token_count && text[i] != "}"; i++)
    if (text[i + 1] == "then") {
      step_labels[protocol, state] = step_labels[protocol, state] " " text[i]
      label_next[protocol, state, text[i]] = text[i + 2]
      i += 2
    }
}

function read_service(i,   channel) {
  channel = text[i]
  if (channel in channel_protocol) return i
  channel_protocol[channel] = text[i + 2]
  channel_at[channel] = i
  i = read_names(i + 4)
  active_roles[channel] = names
  if (text[i] == "|") {
    i = read_names(i + 1)
    service_roles[channel] = names
  }
  return i + 1
}

function read_head(body, i,   end_at) {
  if (body in body_open) return closing(i) + 1
  end_at = closing(i)
  bodies = bodies " " body
  for (i++; i < end_at && text[i] != ";"; i++) {
    if (text[i] == ",") continue
    processes_of[body] = processes_of[body] " " text[i]
    if (text[i + 1] == "(") i = read_asked(body, text[i], i + 2)
  }
  for (i++; i < end_at; i++) if (text[i] != ",") i = read_session(body, i)
  body_open[body] = end_at + 1
  return closing(end_at + 1) + 1
}

function read_asked(body, process, i) {
  for (; text[i] != ")" && i < token_count; i++)
    if (text[i + 1] == ":") {
      asked[body, process] = asked[body, process] " " text[i]
      sort_asked[body, process, text[i]] = text[i + 2]
    }
  return i
}

# A session parameter `k : P.s {A = p, B = q}`; answers the number of its last token.
function read_session(body, i,   session) {
  session = text[i]
  sessions_of[body] = sessions_of[body] " " session
  asked_protocol[body, session] = text[i + 2]
  asked_state[body, session] = text[i + 4]
  for (i += 5; i < token_count && text[i] != "}"; i++)
    if (text[i + 1] == "=") {
      asked_roles[body, session] = asked_roles[body, session] " " text[i]
      asked_holder[body, session, text[i]] = text[i + 2]
    }
  return i
}

# The body that contains token i; "" where there is none.
function body_around(i,   list, n, b) {
  n = split(bodies, list, " ")
  for (b = 1; b <= n; b++)
    if (i > body_open[list[b]] && i <= closing(body_open[list[b]])) return list[b]
  return ""
}
