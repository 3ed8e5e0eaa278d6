# Writes why a file was refused, as compilers do: the place, the rule and a message, the line, and what helps. Takes the
# variables rule, place_row, place_column and who (of M1 and M2), and from the environment the name of the file, the path from
# which it is read, and that of docs/RULES.md, whose sections have the messages and what helps.

BEGIN {
  file = ENVIRON["CHOR_NAME"]
  read_section(ENVIRON["CHOR_RULES"], rule)
  read_tokens(ENVIRON["CHOR_SOURCE"])
  at = token_at(place_row, place_column)
  fill["word"] = word_at(at)
  fill["name"] = who
  facts = facts_of(rule, at)
  if (rule == "P1" || rule == "E1") slip = slip_at(at)
  if (rule == "E1") slip = at == 1 && text[1] ~ /^(protocol|service|proc|main)$/ ? "protocol" : ""
  if (rule == "L1") slip = slip_of_character(substr(lines[place_row], place_column))
  advice = slip in slip_help ? slip_help[slip] : help
  said = filled(message)
  # A message that takes a word which isn't known gives way to the rule's title.
  if (said ~ /\{[a-z]+\}/) said = title
  printf "%s:%d:%d: %s: %s\n", file, place_row, place_column, rule, said
  show_line(place_row, place_column)
  advice = filled(advice)
  if (advice ~ /\{[a-z]+\}/) advice = ""
  print_wrapped(facts (facts == "" || advice == "" ? "" : " ") advice " " quoted("chor explain " rule) " has the rule.")
}

