# Writes why a line of a log doesn't match by the endpoint programs. Takes its number and what `replay` answers of the lines
# before it, and from the environment what log.awk takes and the name of the source.

BEGIN {
  read_section(ENVIRON["CHOR_RULES"], "unmatched")
  read_log()
  facts = fault_of_form(lines[number], number)
  print_unmatched(facts == "" ? fault_of_event(lines[number]) : facts, help)
}

function fault_of_event(line) {
  if (is_last(line)) return line ~ /^end/ ? "Some process hasn't ended after the events before it." : ""
  if (before ~ / ended$/) return "Every process has ended before it."
  return sprintf("The lines before it match, but the endpoint programs of %s can't make this event after them.", ENVIRON["CHOR_CHOREOGRAPHY"])
}
