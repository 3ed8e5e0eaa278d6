# The programs of an endpoint file, and what each process has come to by the events of a transcript. Of each process p, head[p]
# is the token of its next node, session[p,k] the number of the session that it calls k, and role[p,k] its role there. For each
# session and role holder[n,R] is the process that has it; queue[n,R,S] has the messages from R to S that nobody has taken yet.

function read_programs(   i) {
  for (i = 4; i < token_count; i = unit_end(i)) {
    if (text[i] == "channel") read_channel(i)
    if (text[i] == "process") { processes = processes " " text[i + 1]; head[text[i + 1]] = i + 3 }
    if (text[i] == "service") service_body[text[i + 1], text[i + 3]] = i + 6
    if (text[i] == "procedure") { procedure_body[text[i + 1], text[i + 2]] = closing(i + 3) + 2; procedure_list[text[i + 1], text[i + 2]] = i + 4 }
  }
}

# The first token after the unit that begins at token i.
function unit_end(i) {
  if (text[i] == "channel") { for (; text[i] != ";" && i < token_count; i++); return i + 1 }
  for (; text[i] != "{" && i < token_count; i++);
  return closing(i) + 1
}

function read_channel(i,   channel) {
  channel = text[i + 1]
  for (i += 3; text[i] != ")" && text[i] != "|" && i < token_count; i++)
    if (text[i] != ",") active_roles[channel] = active_roles[channel] " " text[i]
}

function after_node(i) { for (; text[i] != ";" && i < token_count; i++); return i + 1 }

# Goes through calls to the node at which a process is.
function settle(process,   i) {
  while (text[head[process]] == "call" && text[head[process] + 1] != "") call_procedure(process, head[process])
}

# After a call a process has the sessions that are passed, by the names of the parameters.
function call_procedure(process, i,   key, at, from, numbers, roles_here, n, j) {
  key = text[i + 1] SUBSEP text[i + 2]
  for (at = i + 4; text[at] != ")" && at < token_count; at++)
    if (text[at] != ",") { n++; numbers[n] = session[process, text[at]]; roles_here[n] = role[process, text[at]] }
  from = procedure_list[key]
  for (j = 1; text[from] != ")" && from < token_count; from++)
    if (text[from] != ",") { session[process, text[from]] = numbers[j]; role[process, text[from]] = roles_here[j]; j++ }
  head[process] = procedure_body[key]
}

# Lets the processes make the event of a line of a transcript.
function follow(line,   words, process, i, parties) {
  split(line, words, " ")
  if (words[2] == "start") { begin_session(line, words[3], words[4]); return }
  process = words[3]
  settle(process)
  i = head[process]
  if (words[2] == "test") { take_branch(process, i, words[4]); return }
  if (words[4] ~ /^#/) {
    split(words[5], parties, ">")
    exchange(words[2], process, i, substr(words[4], 2), parties[1], parties[2], line)
  }
  if (words[2] == "branch") { take_label(process, i, words[6]); return }
  head[process] = after_node(i)
}

function begin_session(line, channel, number,   words, n, j, part, process) {
  number = substr(number, 2)
  n = split(line, words, " ")
  for (j = 5; j <= n; j++) {
    split(words[j], part, "=")
    process = part[2]
    holder[number, part[1]] = process
    if ((channel SUBSEP part[1]) in service_body) {
      processes = processes " " process
      head[process] = service_body[channel, part[1]]
      session[process, channel] = number
      role[process, channel] = part[1]
      continue
    }
    settle(process)
    session[process, text[head[process] + 6]] = number
    role[process, text[head[process] + 6]] = part[1]
    head[process] = after_node(head[process])
  }
}

# Puts a message into its queue, or takes the first one out; an endpoint changes hands.
function exchange(act, process, i, number, from, to, line,   message, key, given) {
  message = line
  sub(/^[^ ]+ [^ ]+ [^ ]+ [^ ]+ [^ ]+ /, "", message)
  key = number SUBSEP from SUBSEP to
  if (act == "send" || act == "pick" || act == "give") queue[key] = queue[key] message "\n"
  else queue[key] = substr(queue[key], index(queue[key], "\n") + 1)
  if (act == "give") delete session[process, text[i + 3]]
  if (act != "gain") return
  split(substr(message, 2), given, ".")
  session[process, text[i + 3]] = given[1]
  role[process, text[i + 3]] = given[2]
  holder[given[1], given[2]] = process
}

function take_branch(process, i, answer,   open) {
  for (open = i + 1; text[open] != "{" && open < token_count; open++);
  head[process] = answer == "true" ? open + 1 : closing(open) + 3
}

function take_label(process, i, label,   at, end_at) {
  end_at = closing(i + 3)
  for (at = i + 4; at < end_at; at = closing(at + 1) + 1)
    if (text[at] == label) { head[process] = at + 2; return }
}
