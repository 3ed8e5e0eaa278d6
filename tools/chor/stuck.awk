# Writes who waits for whom where a run is stuck. Takes the path of the transcript, and from the environment the name of the
# endpoint file, its path, and that of docs/RULES.md.

BEGIN {
  read_section(ENVIRON["CHOR_RULES"], "stuck")
  read_tokens(ENVIRON["CHOR_SOURCE"])
  read_programs()
  while ((getline line < transcript) > 0) {
    if (line ~ /^stuck /) last = line
    else follow(line)
  }
  split(last, words, " ")
  n = split(processes, list, " ")
  for (j = 1; j <= n; j++) settle(list[j])
  printf "%s:%d:%d: stuck: %s\n", ENVIRON["CHOR_NAME"], row[head[words[3]]], column[head[words[3]]], message
  show_line(row[head[words[3]]], column[head[words[3]]])
  for (j = 1; j <= n; j++) if (text[head[list[j]]] != "end") print "    " waits(list[j])
  if (help != "") print_wrapped(help)
}

function waits(process,   i, k, number, from, key, other, first) {
  i = head[process]
  if (text[i] == "join") return sprintf("%s -> %s: it joins %s in role %s, and nobody joins in %s (line %d)", process, \
    text[i + 1], text[i + 1], text[i + 3], absent(text[i + 1], text[i + 3]), row[i])
  number = session[process, text[i + 1]]
  if (text[i] == "send" || text[i] == "pick" || text[i] == "give") return full(process, i, number)
  from = text[i + 2]
  key = number SUBSEP from SUBSEP role[process, text[i + 1]]
  other = (number SUBSEP from) in holder ? holder[number, from] : "nobody"
  first = substr(queue[key], 1, index(queue[key], "\n") - 1)
  return sprintf("%s -> %s: it waits for %s from role %s of #%s, %s (line %d)", process, other, wanted(i), from, number, \
    first == "" ? "and nothing is there" : "and the first message there is " first, row[i])
}

# A process that sends waits for room in its queue.
function full(process, i, number,   to, other) {
  to = text[i + 2]
  other = (number SUBSEP to) in holder ? holder[number, to] : "nobody"
  return sprintf("%s -> %s: it waits to send to role %s of #%s, and the queue is full (line %d)", process, other, to, number, row[i])
}

function wanted(i) {
  return text[i] == "recv" ? "a value" : text[i] == "gain" ? "a role in a session" : "a label that it offers"
}

# The active roles of a channel in which no process joins, other than the given one.
function absent(channel, own,   list, n, j, others, m, k, found, said) {
  n = split(active_roles[channel], list, " ")
  m = split(processes, others, " ")
  for (j = 1; j <= n; j++) {
    if (list[j] == own) continue
    found = 0
    for (k = 1; k <= m; k++)
      if (text[head[others[k]]] == "join" && text[head[others[k]] + 1] == channel && text[head[others[k]] + 3] == list[j]) found = 1
    if (!found) said = said (said == "" ? "" : " or ") list[j]
  }
  return said
}
