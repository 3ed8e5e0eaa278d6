# A log whose line doesn't match: reads it, and what is wrong with the form of a line. Takes the number of the line, and from the
# environment the name of the log, its path, and that of docs/RULES.md.

function read_log(   line) {
  delete lines
  line_count = 0
  while ((getline line < ENVIRON["CHOR_SOURCE"]) > 0) lines[++line_count] = line
}

# Writes the place, the line with the one before it, what is known about it and what helps.
function print_unmatched(facts, advice) {
  printf "%s:%d:1: unmatched: %s\n", ENVIRON["CHOR_NAME"], number, message
  if (number > 1) printf "%5d | %s\n", number - 1, printable(lines[number - 1])
  show_line(number, 1)
  print_wrapped(facts (facts == "" || advice == "" ? "" : " ") advice)
}

function is_last(line) { return line ~ /^(end|limit)( |$)/ }

# What is wrong with how a line is written, or with its number; "" where it is the line of some event or last line.
function fault_of_form(line, number,   words) {
  split(line, words, " ")
  if (line ~ /\r$/) return "It ends with a carriage return, which counts as a part of it."
  if (is_last(line)) {
    if (number < line_count) return "What ends a log is its last line."
    if (words[2] != number - 1) return number == 2 ? "There is 1 event before it." : "There are " number - 1 " events before it."
    return ""
  }
  if (line == "") return "It is empty."
  if (words[1] != number) return "An event in this line has the number " number "."
  return ""
}
