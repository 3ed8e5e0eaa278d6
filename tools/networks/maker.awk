# Makes endpoint files from numbers, as cases of `exec`. A file is made as one order of what all its processes do, and each
# process does its part of it. So the events that such a file makes are counted here too, and its last line is known, whatever
# the seed is: a title says it. A torn file lacks lines here and there, and its sessions share channels: nothing is known of it.

# The next number below another, which looks as if it came by chance.
function below(bound) {
  state = (state * 16807 + 11) % 2147483647
  return int(state / 1024) % bound
}

# One of the words of a list.
function one_of(list,   word) { return word[below(split(list, word, ", ")) + 1] }

# A variable, and an expression.
function variable() { return one_of("x, y, z") }

function expression() {
  return one_of("x + 1, y - 2, x + y, z / 2 + 3, 3 * (4 - 2), -x, x < y, y == z, \"one\", x <= 3 && !(y != 1), 7, z - x, true || z")
}

# A session of a process by the name that it has there: another one after each call.
function name_in(p, s) { return substr("kmh", calls[p] % 3 + 1, 1) s }

# The names of all sessions of a process.
function names_in(p,   s, count, i, names) {
  count = split(held[p], s, " ")
  for (i = 1; i <= count; i++) names = names (i > 1 ? ", " : "") name_in(p, s[i])
  return names
}

# A procedure may have eight sessions.
function is_busy(p) { return joined[p] > 4 }

# Something more stands in the code of a process.
function write(p, words) { body[p] = body[p] words }

# A line of a process, unless it is torn out.
function line(p, words) { if (!torn || below(8) != 0) write(p, words "; ") }

# What a process has still to do stands in a procedure from now on, and each of these pieces ends with its call.
function split_off(p, front, middle, last,   call) {
  call = "call F" calls[p] + 1 " p" p " (" names_in(p) ")"
  write(p, front call (middle == "" ? "" : middle call) last closing[p] " }\n")
  done[p] = done[p] body[p]
  calls[p]++
  body[p] = "procedure F" calls[p] " p" p " (" names_in(p) ") { show " calls[p] "; "
  closing[p] = ""
  events++
}

# A process joins a session.
function join(p, name, role, s) {
  write(p, "join " name "[" role "](" name_in(p, s) "); ")
  held[p] = held[p] s " "
  who[s, role] = p
  joined[p]++
}

# One unit more.
function declare(words) { units = units words "\n" }

# A session with so many processes, from this one on and in this distance: its number, or nothing where one has many sessions.
function start(roles, first, distance,   role, count, i, name) {
  count = split(roles, role, " ")
  for (i = 0; i < count; i++) if (is_busy((first + i * distance) % processes)) return ""
  name = torn ? "c" count : "c" sessions
  gsub(/ /, ", ", roles)
  if (!torn || !(name in declared)) declare("channel " name " (" roles ");")
  declared[name] = 1
  for (i = 0; i < count; i++) join((first + i * distance) % processes, name, role[i + 1], sessions)
  roles_of[sessions] = count
  events++
  return sessions++
}

# A session in which some processes are, or nothing. Then `from` and `to` are two of its roles.
function session(   tries, s) {
  for (tries = 0; tries < 9 && sessions > 0; tries++) {
    s = below(sessions)
    if (!(s in roles_of)) continue
    from = substr("ABC", below(roles_of[s]) + 1, 1)
    to = substr("ABC", below(roles_of[s]) + 1, 1)
    if (from != to && who[s, from] != "" && who[s, to] != "") return s
  }
  return ""
}

# A value goes from one role to another.
function value(s, from, to, what) {
  line(who[s, from], "send " name_in(who[s, from], s) " " to " " what)
  line(who[s, to], "recv " name_in(who[s, to], s) " " from " " variable())
  events += 2
}

# A label, among others that are offered.
function label(s, from, to,   p, said) {
  p = who[s, to]
  said = one_of("yes, no, more")
  line(who[s, from], "pick " name_in(who[s, from], s) " " to " " said)
  if (torn && below(8) == 0) return
  write(p, "branch " name_in(p, s) " " from " { " (said == "no" ? "" : "no { show x; end } ") said " { ")
  closing[p] = " }" (said == "yes" ? "" : " yes { end }") " }" closing[p]
  events += 2
}

# A decision is told by a label, and both go on in the same way after either.
function told(s, from, to,   p, q, k, h) {
  p = who[s, from]
  q = who[s, to]
  k = "pick " name_in(p, s) " " to " "
  h = "branch " name_in(q, s) " " from
  split_off(p, "if " expression() " { " k "less; ", " } else { " k "more; ", " }")
  split_off(q, h " { less { set y 1; ", " } more { show y; ", " } }")
  events += 4
}

# A process hands a role over to another.
function hand_over(s, from, to, g,   p, q, role) {
  p = who[s, from]
  q = who[s, to]
  for (role = 1; who[g, substr("ABC", role, 1)] != p; role++) {}
  who[g, substr("ABC", role, 1)] = q
  write(p, "give " name_in(p, s) " " to " " name_in(p, g) "; ")
  write(q, "gain " name_in(q, s) " " from " " name_in(q, g) "; ")
  held[p] = without(held[p], g)
  held[q] = held[q] g " "
  events += 2
}

# One of the roles of a process is handed over, if the other process has room for it.
function gift(s, from, to,   list, g) {
  g = any_of(held[who[s, from]])
  if (g == s || !(g in roles_of) || index(" " held[who[s, to]], " " g " ") || split(held[who[s, to]], list, " ") > 7) alone(who[s, from])
  else hand_over(s, from, to, g)
}

# One of the numbers of a list.
function any_of(list,   word) { return word[below(split(list, word, " ")) + 1] }

# A list of numbers without one of them.
function without(list, g,   s, count, i, left) {
  count = split(list, s, " ")
  for (i = 1; i <= count; i++) if (s[i] != g) left = left s[i] " "
  return left
}

# A process does something by itself.
function alone(p,   what, v, f) {
  what = below(6)
  if (what == 0 || what == 2) v = variable()
  if (what == 0) write(p, "set " v " " expression() "; ")
  if (what == 1) write(p, "show " expression() "; ")
  if (what == 2) {
    f = one_of("min, max, gap")
    f = f "(" variable() ", "
    write(p, "host " v " " f expression() "); ")
  }
  if (what == 3) split_off(p, "", "", "")
  if (what == 4) split_off(p, "if " expression() " { show 1; ", " } else { set z 2; ", " }")
  if (what == 5) {
    write(p, "if x <= x { ")
    closing[p] = " } else { end }" closing[p]
  }
  if (what != 3) events++
  if (what == 4) events++
}

# A process starts a session with one of the services, and uses it. They are numbered by what they do: 0 is sent a value and
# answers, 1 is told a label, 2 takes an endpoint over, 3 are two processes, 4 calls a procedure that calls itself, and 5 asks 0.
function serve(p,   kind, s, k, v, g, count) {
  kind = below(6)
  if (is_busy(p) || is_busy((p + 1) % processes)) return alone(p)
  s = sessions++
  k = name_in(p, s)
  v = variable()
  join(p, "d" kind, "A", s)
  events++
  served[kind] = 1
  if (kind == 0 || kind == 3) line(p, "send " k " S " expression())
  if (kind == 0) line(p, "recv " k " S " v)
  if (kind == 3) line(p, "recv " k " T " v)
  if (kind == 1) {
    g = one_of("up, down")
    line(p, "pick " k " S " g)
    line(p, "recv " k " S " v)
    if (g == "up") events++
  }
  if (kind == 2) hand(p, s, k, v)
  if (kind == 4) {
    line(p, "pick " k " S more")
    line(p, "send " k " S " expression())
    line(p, "pick " k " S stop")
    line(p, "recv " k " S " v)
  }
  if (kind == 5) {
    line(p, "send " k " S " expression())
    line(p, "recv " k " S " v)
    served[0] = 1
  }
  split("4 4 0 6 9 9", count, " ")
  events += count[kind + 1]
}

# The service takes over a new session, in which another process asks it.
function hand(p, s, k, v,   q, g) {
  q = (p + 1) % processes
  g = sessions++
  declare("channel g" g " (A, B);")
  join(q, "g" g, "A", g)
  join(p, "g" g, "B", g)
  held[p] = without(held[p], g)
  write(p, "give " k " S " name_in(p, g) "; ")
  line(q, "send " name_in(q, g) " B " expression())
  line(q, "recv " name_in(q, g) " B " v)
  events += 7
}

# Two processes start a session with a service, which one of them asks and which answers the other.
function serve_both(p, q,   s, name) {
  if (is_busy(p) || is_busy(q)) return alone(p)
  s = sessions++
  name = "b" s
  declare("channel " name " (A, B | S);\nservice " name "[S] { recv " name " A x; set y x * 2; send " name " B y - x; end }")
  join(p, name, "A", s)
  join(q, name, "B", s)
  line(p, "send " name_in(p, s) " S " expression())
  line(q, "recv " name_in(q, s) " S " variable())
  events += 6
}

# The channels with services that are used.
function services(   kind) {
  for (kind = 0; kind < 6; kind++) if (kind in served) declare("channel d" kind " (A | S" (kind == 3 ? ", T" : "") ");")
  if (0 in served) declare("service d0[S] { recv d0 A x; send d0 A x + 1; end }")
  if (1 in served) declare("service d1[S] { branch d1 A { down { send d1 A 2; end } up { show \"up\"; send d1 A 1; end } } }")
  if (2 in served) declare("service d2[S] { gain d2 A g; recv g A x; send g A x + x; end }")
  if (3 in served) {
    declare("service d3[T] { recv d3 S y; send d3 A y; end }")
    declare("service d3[S] { recv d3 A x; send d3 T x - 1; end }")
  }
  if (4 in served) {
    declare("procedure Count s (k) { branch k A { more { recv k A y; call Count s (k) } stop { send k A y; end } } }")
    declare("service d4[S] { show x; call Count s (d4) }")
  }
  if (5 in served) declare("service d5[S] { recv d5 A x; join d0[A](h); send h S x; recv h S x; send d5 A x; end }")
}

# Process 0 meets two others in one role of a channel, and nobody knows which of them comes first.
function crowd(role,   other, guest, s) {
  other = role == "A" ? "B" : "A"
  declare("channel crowd (A, B);")
  for (guest = 1; guest <= 2; guest++) {
    s = sessions++
    join(0, "crowd", role, s)
    join(guest, "crowd", other, s)
    who[s, role] = 0
    value(s, role, other, guest)
    value(s, other, role, "x + " guest)
    events++
  }
}

# One thing more happens.
function scene(   what, s) {
  what = below(10)
  s = session()
  if (what < 2 && start_any() != "") return
  if (what < 6 && s != "") {
    if (what == 2) value(s, from, to, expression())
    else if (what == 3) label(s, from, to)
    else if (what == 4) gift(s, from, to)
    else told(s, from, to)
  } else if (what == 6 && serves) serve(below(processes))
  else if (what == 7 && serves) serve_both(0, 1 + below(processes - 1))
  else alone(below(processes))
}

# A session starts, unless somebody has too many.
function start_any(   roles, distance) {
  roles = processes > 2 && below(3) == 0 ? "A B C" : "A B"
  distance = 1 + below(processes - 1)
  if (2 * distance == processes) distance = 1
  return start(roles, below(processes), distance)
}

# What processes 0 and 1 do last, and how the run ends then, with so many events more. The others end.
function finally(last,   part) {
  split(last, part, "@")
  declare(part[1])
  ending[0] = part[2]
  ending[1] = part[3]
  promise = part[4]
  events += part[5]
}

# The file that is made, and its runs.
function finish(steps, seeds,   p, file) {
  services()
  file = "endpoints 1;\n" units
  for (p = 0; p < processes; p++) file = file done[p] body[p] (p in ending ? ending[p] : "end") closing[p] " }\n"
  put_cases(file, steps, seeds)
}

# Writes a file and its cases, with so many events at most.
function put_cases(file, steps, seeds,   seed, count, i, how) {
  how = "file " number ", of " processes " processes"
  if (torn) how = how ", some lines of which are torn out"
  else if (promise == "ends") how = how ", which ends after " events " events"
  else if (promise == "goes on") how = how ", which goes on for ever"
  else how = how ", which is stuck after " events " events by " promise
  printf "=== base\n%s", file
  count = split(seeds, seed, " ")
  for (i = 1; i <= count; i++) print "=== exec FILE --seed " seed[i] " --steps " steps ": " how
}
