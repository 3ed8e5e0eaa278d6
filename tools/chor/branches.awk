# What a process does in each branch of a conditional, up to the next conditional, and where the two first differ.

# Lists the acts of a process from token i on: act_key[side,n] tells them apart, act_said[side,n] and act_row[side,n].
function list_acts(process, side, i,   count) {
  count = 0
  while (1) {
    read_statement(i)
    if (s_form == "if" && s_from != process) { add_act(side, ++count, "unknown", "", i); break }
    add_acts_of(process, side, count, i)
    count = act_count[side]
    if (s_form == "end" || s_form == "call" || s_form == "if") break
    i = s_next
  }
  act_count[side] = count
}

function add_act(side, n, key, said, i) {
  act_key[side, n] = key
  act_said[side, n] = said
  act_row[side, n] = row[i]
  act_count[side] = n
}

function add_acts_of(process, side, count, i,   expression, computed) {
  act_count[side] = count
  expression = words_between(s_first, s_last)
  computed = spaced(s_first, s_last)
  if (s_form == "end" || s_form == "call" && !has_word(s_parts, process)) add_act(side, count + 1, "end", "ends", i)
  else if (s_form == "call") add_act(side, count + 1, call_key(process), "calls " quoted(words_between(i + 1, s_next)), i)
  else if (s_form == "start" && has_word(s_parts s_new, process))
    add_act(side, count + 1, "join " s_channel " " s_session " " part_role[process], "starts a session of " quoted(s_channel), i)
  else if (s_form == "value" && s_from == process)
    add_act(side, count + 1, "send " s_session " " s_to_role " " computed, "sends " quoted(expression) " to " s_to, i)
  else if (s_form == "value" && s_to == process)
    add_act(side, count + 1, "recv " s_session " " s_role " " s_variable, "receives " quoted(s_variable) " from " s_from, i)
  else if (s_form == "label" && s_from == process)
    add_act(side, count + 1, "pick " s_session " " s_to_role " " s_label, "selects " quoted(s_label) " for " s_to, i)
  else if (s_form == "label" && s_to == process)
    add_act(side, count + 1, "branch " s_session " " s_role " : " s_label, "learns " quoted(s_label) " from " s_from, i)
  else if (s_form == "gift" && s_from == process)
    add_act(side, count + 1, "give " s_session " " s_to_role " " s_given, "hands " quoted(s_given) " over to " s_to, i)
  else if (s_form == "gift" && s_to == process)
    add_act(side, count + 1, "gain " s_session " " s_role " " s_given, "takes " quoted(s_given) " over from " s_from, i)
  else if (s_form == "if") add_act(side, count + 1, "if " computed, "decides by " quoted(expression), i)
  else if (s_from == process && (s_form == "show" || s_form == "variable" || s_form == "host"))
    add_act(side, count + 1, s_form " " s_variable " " spaced(i + 2, s_next), s_form == "show" ? \
      "shows " quoted(expression) : "sets " quoted(s_variable), i)
}

# What a call is in the code of a process that it passes: the procedure, the parameter, and the sessions that list it as a holder.
function call_key(process,   list, n, j, parameter, key, given) {
  n = split(s_parts, list, " ")
  split(processes_of[s_label], given, " ")
  for (j = 1; j <= n; j++) if (list[j] == process) parameter = given[j]
  key = "call " s_label " " parameter
  n = split(s_new, list, " ")
  split(sessions_of[s_label], given, " ")
  for (j = 1; j <= n; j++) if (has_word(held_in_head(s_label, given[j]), parameter)) key = key " " list[j]
  return key
}

# Acts that differ in parentheses or zeros alone may be the same.
function bare(key) {
  gsub(/[()]/, "", key)
  gsub(/ +/, " ", key)
  while (match(key, / 0+[0-9]/)) key = substr(key, 1, RSTART) substr(key, RSTART + RLENGTH - 1)
  return key
}

# Where a process does other things in the branches of the conditional at token i; "" where that isn't known.
function branches_differ(process, i,   n, open, one, two, same_end) {
  read_statement(i)
  open = s_next - 1
  list_acts(process, 1, open + 1)
  list_acts(process, 2, closing(open) + 3)
  for (n = 1; n <= act_count[1] && n <= act_count[2]; n++) {
    one = act_key[1, n]
    two = act_key[2, n]
    if (one == two && one != "unknown") continue
    if (bare(one) == bare(two)) return ""
    if (one == "unknown" || two == "unknown") return ""
    same_end = index(one, " : ")
    if (one ~ /^branch/ && two ~ /^branch/ && same_end == index(two, " : ") && substr(one, 1, same_end) == substr(two, 1, same_end))
      return ""
    return sprintf("In the first branch %s %s (line %d), in the second %s %s (line %d).", process, act_said[1, n],
      act_row[1, n], process, act_said[2, n], act_row[2, n])
  }
  return ""
}
