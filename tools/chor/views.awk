# What a role of a protocol can know: the sets of states in which the protocol may be for all that it sees, and in which of
# them the rules of views are violated.

# What a role does in a state: "" where the step doesn't name it.
function act_of(protocol, state, role,   key) {
  key = protocol SUBSEP state
  if (!(key in step_from)) return "end"
  if (step_from[key] == role)
    return step_payload[key] != "" ? "sends " step_payload[key] " to " step_to[key] : "selects " any_of(step_labels[key]) " for " step_to[key]
  if (step_to[key] != role) return ""
  return (step_payload[key] != "" ? "receives " step_payload[key] : "learns a label") " from " step_from[key]
}

# The words of a list, as in "a, b or c"; their order in the source doesn't count.
function any_of(words,   said) {
  said = listed(ordered(words))
  sub(/ and /, " or ", said)
  return said
}

# The words of a list in ascending order.
function ordered(words,   list, n, i, j, said, least) {
  n = split(words, list, " ")
  for (i = 1; i <= n; i++) {
    least = ""
    for (j = 1; j <= n; j++) if (list[j] != "" && (least == "" || list[j] < list[least])) least = j
    said = said (i > 1 ? " " : "") list[least]
    list[least] = ""
  }
  return said
}

# The states after a step, as a list.
function targets_of(protocol, state,   key, list, n, i, said) {
  key = protocol SUBSEP state
  if (step_payload[key] != "") return step_next[key]
  n = split(step_labels[key], list, " ")
  for (i = 1; i <= n; i++) said = said " " label_next[key, list[i]]
  return said
}

# The states to which those of a list lead by steps that don't name the role, they among them, in ascending order.
function unseen(protocol, role, set,   list, n, i, more, j, m) {
  n = split(set, list, " ")
  set = ""
  for (i = 1; i <= n; i++) {
    if (has_word(set, list[i])) continue
    set = set " " list[i]
    if (act_of(protocol, list[i], role) != "") continue
    m = split(targets_of(protocol, list[i]), more, " ")
    for (j = 1; j <= m; j++) list[++n] = more[j]
  }
  return ordered(set)
}

# Goes over the sets of states that the role can't tell apart until one violates V1 or V2; answers why, or "".
function view_fault(rule, protocol, role,   queue, first, last, said) {
  delete was_seen
  queue[last = 1] = unseen(protocol, role, first_state[protocol])
  was_seen[queue[1]] = 1
  for (first = 1; first <= last && first < 1000; first++) {
    said = rule == "V1" ? clash_in(protocol, role, queue[first]) : circle_in(protocol, role, queue[first])
    if (said != "") return said
    last = sets_after(protocol, role, queue, first, last)
  }
  return ""
}

# Adds the sets that follow one; acts of labels go on label by label.
function sets_after(protocol, role, queue, first, last,   list, n, i, act, after, key, labels, m, j, set) {
  n = split(queue[first], list, " ")
  for (i = 1; i <= n; i++) {
    act = act_of(protocol, list[i], role)
    key = protocol SUBSEP list[i]
    if (act == "" || act == "end") continue
    if (step_payload[key] != "") after[act] = after[act] " " step_next[key]
    m = split(step_labels[key], labels, " ")
    for (j = 1; j <= m; j++) after[act " " labels[j]] = after[act " " labels[j]] " " label_next[key, labels[j]]
  }
  for (act in after) {
    set = unseen(protocol, role, after[act])
    if (!(set in was_seen)) { was_seen[set] = 1; queue[++last] = set }
  }
  return last
}

function clash_in(protocol, role, set,   list, n, i, act, first, first_act) {
  n = split(set, list, " ")
  for (i = 1; i <= n; i++) {
    act = act_of(protocol, list[i], role)
    if (act == "") continue
    if (first == "") { first = list[i]; first_act = act; continue }
    if (act != first_act)
      return sprintf("For all that %s knows, the protocol may be in state %s, where %s, or in %s, where %s.", quoted(role),
        quoted(first), said_of(role, first_act), quoted(list[i]), said_of(role, act))
  }
  return ""
}

function said_of(role, act) { return act == "end" ? "nothing follows" : quoted(role) " " act }

# Takes away, again and again, states that no unseen step leads from or to, until only circles are left.
function circle_in(protocol, role, set,   list, n, i, left, waits, before) {
  n = split(set, list, " ")
  for (i = 1; i <= n; i++) {
    if (act_of(protocol, list[i], role) == "") left = left " " list[i]
    else if (act_of(protocol, list[i], role) != "end" && waits == "") waits = list[i]
  }
  if (waits == "") return ""
  while (left != before) { before = left; left = still_round(protocol, left) }
  if (left == "") return ""
  return sprintf("The others may go on through %s for ever, and %s waits for state %s.", listed(left), quoted(role), quoted(waits))
}

function still_round(protocol, set,   list, n, i, kept, reached, after, m, j, goes_on) {
  n = split(set, list, " ")
  for (i = 1; i <= n; i++) reached = reached " " targets_of(protocol, list[i])
  for (i = 1; i <= n; i++) {
    goes_on = 0
    m = split(targets_of(protocol, list[i]), after, " ")
    for (j = 1; j <= m; j++) if (has_word(set, after[j])) goes_on = 1
    if (goes_on && has_word(reached, list[i])) kept = kept " " list[i]
  }
  return kept
}
