# Writes that a log hasn't an event. Takes the rule and the number that was asked for, and from the environment the name of the log,
# its path, and that of docs/RULES.md.

BEGIN {
  read_section(ENVIRON["CHOR_RULES"], rule)
  while ((getline line < ENVIRON["CHOR_SOURCE"]) > 0) if (line !~ /^(end|limit) /) lines[++count] = line
  fill["number"] = asked
  at = count == 0 ? 1 : count
  printf "%s:%d:1: %s: %s\n", ENVIRON["CHOR_NAME"], at, rule, filled(message)
  show_line(at, 1)
  print_wrapped(count == 0 ? "The log has no event." : sprintf("The last event of the log has the number %d.", count))
  print_wrapped(help " " quoted("chor explain " rule) " has the rule.")
}
