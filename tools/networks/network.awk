# A plain network: it reads cases `=== exec FILE --seed S --steps M: name`, each with an endpoint file or with the one after the
# last line `=== base`, and writes the answer of each. It is written from docs/LANGUAGE.md, "Endpoint files" and "Runs and
# transcripts". A source is a list of tokens, and a process stands at one of them. Processes, their variables and sessions, and
# queues are lists, which are gone through from the first entry on. Numbers must be small.
#
# A value is `int 3`, `bool true`, `text "a"` or `part #0.A`, and what is in a queue is a value or `label ok`.

# Cuts a source into tokens.
function cut(source) {
  tokens = 0
  while (source != "") {
    if (match(source, /^[ \t\r\n]+/) || match(source, /^\/\/[^\n]*/)) {
      source = substr(source, RLENGTH + 1)
      continue
    }
    if (!match(source, /^[A-Za-z_][A-Za-z0-9_]*/) && !match(source, /^[0-9]+/) && !match(source, /^"([^"\\]|\\.)*"/) && !match(source, /^(:=|->|==|!=|<=|&&|\|\|)/)) RLENGTH = 1
    token[++tokens] = substr(source, 1, RLENGTH)
    source = substr(source, RLENGTH + 1)
  }
}

# The place after a body that begins at a brace.
function after_body(at,   depth) {
  do {
    if (token[at] == "{") depth++
    if (token[at] == "}") depth--
    at++
  } while (depth > 0)
  return at
}

# The words of a list up to a token that ends it, with a space after each.
function list_at(at, last,   words) {
  for (; token[at] != last && token[at] != ")"; at++) if (token[at] != ",") words = words token[at] " "
  list_end = at
  return words
}

# Finds the units of a file, and its processes stand at their bodies.
function declare(   at) {
  channels = procedures = services = processes = queues = sessions = events = 0
  transcript = ""
  for (at = 4; at <= tokens;) {
    if (token[at] == "channel") {
      channel[++channels] = token[at + 1]
      active[channels] = list_at(at + 3, "|")
      served[channels] = token[list_end] == "|" ? list_at(list_end + 1, ")") : ""
      at = list_end + 2
    } else if (token[at] == "procedure") {
      procedure[++procedures] = token[at + 1] " " token[at + 2]
      passed[procedures] = list_at(at + 4, ")")
      body_of[procedures] = list_end + 2
      at = after_body(list_end + 1)
    } else if (token[at] == "service") {
      service[++services] = token[at + 1] " " token[at + 3]
      service_body[services] = at + 6
      at = after_body(at + 5)
    } else {
      add_process(token[at + 1], at + 3)
      at = after_body(at + 2)
    }
  }
}

# One process more.
function add_process(name, at) {
  name_of[processes] = name
  variables[processes] = held[processes] = 0
  stands[processes++] = at
}

# The number of a channel.
function channel_named(name,   i) {
  for (i = 1; i <= channels; i++) if (channel[i] == name) return i
}

# A process at a call goes on with the body that is called, and has the sessions that are passed.
function enter(p,   at, i, j, given, wanted, count, role, sid) {
  at = stands[p]
  if (token[at] != "call") return
  for (i = 1; procedure[i] != token[at + 1] " " token[at + 2]; i++) {}
  split(list_at(at + 4, ")"), given, " ")
  count = split(passed[i], wanted, " ")
  for (j = 1; j <= count; j++) {
    sid[j] = sid_of(p, given[j])
    role[j] = role_of(p, given[j])
  }
  held[p] = 0
  for (j = 1; j <= count; j++) hold(p, wanted[j], sid[j], role[j])
  stands[p] = body_of[i]
}

# A process has a role in a session by a name from now on.
function hold(p, name, sid, role) {
  held[p]++
  held_name[p, held[p]] = name
  held_sid[p, held[p]] = sid
  held_role[p, held[p]] = role
}

# A process no longer has a session.
function leave(p, name,   i) {
  for (i = 1; held_name[p, i] != name; i++) {}
  for (; i < held[p]; i++) {
    held_name[p, i] = held_name[p, i + 1]
    held_sid[p, i] = held_sid[p, i + 1]
    held_role[p, i] = held_role[p, i + 1]
  }
  held[p]--
}

# The number of a session of a process, and its role there.
function sid_of(p, name,   i) {
  for (i = 1; i <= held[p]; i++) if (held_name[p, i] == name) return held_sid[p, i]
}

function role_of(p, name,   i) {
  for (i = 1; i <= held[p]; i++) if (held_name[p, i] == name) return held_role[p, i]
}

# The value of a variable.
function value_of(p, name,   i) {
  for (i = 1; i <= variables[p]; i++) if (variable[p, i] == name) return value[p, i]
  return "int 0"
}

# A variable is set.
function put(p, name, new,   i) {
  for (i = 1; i <= variables[p]; i++) if (variable[p, i] == name) break
  if (i > variables[p]) variables[p] = i
  variable[p, i] = name
  value[p, i] = new
}

# The number of a queue, or 0 where nothing was ever sent.
function queue_of(sid, from, to,   q) {
  for (q = 1; q <= queues; q++) if (queue_sid[q] == sid && queue_from[q] == from && queue_to[q] == to) return q
  return 0
}

# The first process whose head joins a channel in a role, or nothing.
function joiner(name, role,   p, at) {
  for (p = 0; p < processes; p++) {
    at = stands[p]
    if (token[at] == "join" && token[at + 1] == name && token[at + 3] == role) return p
  }
  return ""
}

# Whether a branch offers a label, and then `arm` is the place of what it goes on with.
function offers(at, label) {
  for (at += 4; token[at] != "}"; at = after_body(at + 1)) {
    arm = at + 2
    if (token[at] == label) return 1
  }
  return 0
}

# Whether a process at a place takes what is first in its queue.
function takes(at, what) {
  if (token[at] == "recv") return what ~ /^(int|bool|text) /
  if (token[at] == "gain") return what ~ /^part /
  return what ~ /^label / && offers(at, written(what))
}

# What a process can do: `goes`, `ended`, or what it waits for.
function turn(p,   at, role, roles, i, q, why) {
  at = stands[p]
  if (token[at] == "end") return "ended"
  if (token[at] == "join") {
    roles = split(active[channel_named(token[at + 1])], role, " ")
    for (i = 1; i <= roles; i++)
      if (role[i] != token[at + 3] && joiner(token[at + 1], role[i]) == "") return "absent " token[at + 1] " " role[i]
    return "goes"
  }
  if (token[at] !~ /^(recv|branch|gain)$/) return "goes"
  why = " #" sid_of(p, token[at + 1]) " " token[at + 2] ">" role_of(p, token[at + 1])
  q = queue_of(sid_of(p, token[at + 1]), token[at + 2], role_of(p, token[at + 1]))
  if (q == 0 || size[q] == 0) return "empty" why
  return takes(at, load[q, 1]) ? "goes" : "wrong" why
}

# A process that joins is listed in the first active role of the channel alone.
function is_listed(p,   at, role) {
  at = stands[p]
  if (token[at] != "join") return 1
  split(active[channel_named(token[at + 1])], role, " ")
  return role[1] == token[at + 3]
}

# Writes an event.
function tell(words) {
  events++
  transcript = transcript events " " words "\n"
}

# What is in a queue, or a value, as it is written.
function written(what) { return substr(what, index(what, " ") + 1) }

# A session starts with this process, with the first that joins in each other active role, and with new processes.
function start(p,   at, c, own, role, roles, partner, i, told, s, name) {
  at = stands[p]
  own = token[at + 3]
  name = token[at + 1]
  c = channel_named(name)
  roles = split(active[c], role, " ")
  for (i = 1; i <= roles; i++) partner[i] = role[i] == own ? p : joiner(name, role[i])
  told = "start " name " #" sessions
  for (i = 1; i <= roles; i++) {
    told = told " " role[i] "=" name_of[partner[i]]
    hold(partner[i], token[stands[partner[i]] + 6], sessions, role[i])
    go_on(partner[i], stands[partner[i]] + 9)
  }
  roles = split(served[c], role, " ")
  for (i = 1; i <= roles; i++) {
    for (s = 1; service[s] != name " " role[i]; s++) {}
    told = told " " role[i] "=%" processes
    add_process("%" processes, service_body[s])
    hold(processes - 1, name, sessions, role[i])
    enter(processes - 1)
  }
  sessions++
  tell(told)
}

# A process stands at a place from now on.
function go_on(p, at) {
  stands[p] = at
  enter(p)
}

# A process sends.
function send(p,   at, sid, from, to, what, word, q) {
  at = stands[p]
  word = token[at]
  sid = sid_of(p, token[at + 1])
  from = role_of(p, token[at + 1])
  to = token[at + 2]
  here = at + 3
  if (word == "pick") what = "label " token[here++]
  else if (word == "send") what = expression(p)
  else {
    what = "part #" sid_of(p, token[here]) "." role_of(p, token[here])
    leave(p, token[here++])
  }
  q = queue_of(sid, from, to)
  if (q == 0) {
    q = ++queues
    queue_sid[q] = sid
    queue_from[q] = from
    queue_to[q] = to
    size[q] = 0
  }
  load[q, ++size[q]] = what
  go_on(p, here + 1)
  tell(word " " name_of[p] " #" sid " " from ">" to " " written(what))
}

# A process receives.
function receive(p,   at, sid, from, to, what, word, q, i, part) {
  at = stands[p]
  word = token[at]
  sid = sid_of(p, token[at + 1])
  from = token[at + 2]
  to = role_of(p, token[at + 1])
  q = queue_of(sid, from, to)
  what = load[q, 1]
  for (i = 1; i < size[q]; i++) load[q, i] = load[q, i + 1]
  size[q]--
  if (word == "recv") put(p, token[at + 3], what)
  if (word == "gain") {
    split(written(what), part, /[#.]/)
    hold(p, token[at + 3], part[2], part[3])
  }
  if (word == "branch") {
    offers(at, written(what))
    go_on(p, arm)
  } else go_on(p, at + 5)
  tell(word " " name_of[p] " #" sid " " from ">" to " " written(what))
}

# What a host function answers: `min`, `max`, `gap`, the distance of two numbers, or `dice`.
function answer(name, a, b) {
  if (name == "min") return a < b ? a : b
  if (name == "max") return a < b ? b : a
  if (name == "dice") return 1 + (a < b ? b - a : a - b) % 6
  return a < b ? b - a : a - b
}

# A process does something by itself.
function act_alone(p,   at, v, a, b) {
  at = stands[p]
  if (token[at] == "set") {
    here = at + 2
    v = expression(p)
    put(p, token[at + 1], v)
    tell("set " name_of[p] " " token[at + 1] " " written(v))
    go_on(p, here + 1)
  } else if (token[at] == "show") {
    here = at + 1
    tell("show " name_of[p] " " written(expression(p)))
    go_on(p, here + 1)
  } else if (token[at] == "host") {
    here = at + 4
    a = number(expression(p))
    here++
    b = number(expression(p))
    v = answer(token[at + 2], a, b)
    put(p, token[at + 1], int_of(v))
    tell("host " name_of[p] " " token[at + 1] " " token[at + 2] " " a " " b " " v)
    go_on(p, here + 2)
  } else {
    here = at + 1
    v = truth(expression(p))
    tell("test " name_of[p] " " (v ? "true" : "false"))
    go_on(p, v ? here + 1 : after_body(here) + 2)
  }
}

# One event of a process.
function act(p,   word) {
  word = token[stands[p]]
  if (word == "join") start(p)
  else if (word ~ /^(send|pick|give)$/) send(p)
  else if (word ~ /^(recv|branch|gain)$/) receive(p)
  else act_alone(p)
}

# The last line of a run that comes to its end here, or nothing.
function closed(steps,   p, ended, can_go, first) {
  for (p = 0; p < processes; p++) {
    if (turns[p] == "ended") ended++
    else if (first == "") first = " " name_of[p] " " turns[p]
    if (turns[p] == "goes") can_go++
  }
  if (ended == processes) return "end " events
  if (events == steps + 0) return "limit " events
  return can_go ? "" : "stuck " events first
}

# The run of the source with a seed and at most so many events, and its last line.
function run(seed, steps,   p, last, listed, count) {
  declare()
  for (p = 0; p < processes; p++) enter(p)
  while (1) {
    for (p = 0; p < processes; p++) turns[p] = turn(p)
    last = closed(steps)
    if (last != "") return last
    count = 0
    for (p = 0; p < processes; p++) if (turns[p] == "goes" && is_listed(p)) listed[count++] = p
    act(listed[(seed + events) % count])
  }
}

# Whether a last line is what a title says, if it says how the run ends.
function is_said(title, last,   count) {
  count = match(title, /after [0-9]+ events/) ? substr(title, RSTART + 6, RLENGTH - 13) : ""
  if (title ~ /which ends after/) return last == "end " count
  if (title ~ /which goes on for ever/) return last ~ /^limit /
  if (title ~ /which is stuck after/) return index(last, "stuck " count " p0 " substr(title, RSTART + RLENGTH + 4)) == 1
  return 1
}

# Writes the answer of a case.
function answer_case(title, source,   words, word, i, seed, steps, last) {
  if (source != shown) cut(source)
  shown = source
  words = split(substr(title, 1, index(title, ": ") - 1), word, " ")
  seed = 0
  steps = 100000
  for (i = 1; i < words; i++) {
    if (word[i] == "--seed") seed = word[i + 1]
    if (word[i] == "--steps") steps = word[i + 1]
  }
  last = run(seed, steps)
  if (!is_said(title, last)) {
    print "network_cases: " last " is not what is said: " title > "/dev/stderr"
    failed = 1
    exit 1
  }
  printf "=== %s\nstatus %s\n%s%s\n", title, (last ~ /^stuck / ? 7 : 0), transcript, last
}

# What has been read is the source of the cases after it, or a case.
function finish() {
  if (section == "base") base = body
  if (section ~ /^exec /) answer_case(section, body == "" ? base : body)
}

/^=== / {
  finish()
  section = substr($0, 5)
  body = ""
  next
}
{ body = body $0 "\n" }
END { if (!failed) finish() }
