# How reasons are written: the sections of docs/RULES.md, templates with words filled in, lines with a caret, wrapped text.

# The title, the message, what helps (with protocols too, where a section has that) and the table of slips of a rule's section.
function read_section(path, rule,   line, inside, cells) {
  while ((getline line < path) > 0) {
    if (line ~ /^## /) inside = index(line, "## " rule ":") == 1
    if (!inside) continue
    if (line ~ /^## /) title = substr(line, length("## " rule ": ") + 1)
    if (line ~ /^- Message: /) message = substr(line, 12)
    if (line ~ /^- Help: /) help = substr(line, 9)
    if (line ~ /^- Help with protocols: /) other_help = substr(line, 24)
    if (line ~ /^\| .* \| .* \|$/) {
      split(line, cells, / \| /)
      sub(/^\| /, "", cells[1])
      sub(/ \|$/, "", cells[2])
      gsub(/`/, "", cells[1])
      slip_help[cells[1]] = cells[2]
    }
  }
  close(path)
}

# The word at a place; the end of a file has none, and what can't be seen isn't told.
function word_at(i,   word, rest) {
  if (i == token_count) return "end of the file"
  word = text[i]
  if (i == 0) {
    rest = substr(lines[place_row], place_column)
    match(rest, /^([\300-\377][\200-\277]*|.)/)
    word = substr(rest, 1, RLENGTH)
  }
  return word ~ /^[!-~\200-\377]/ ? printable(word) : ""
}

# A template with its words filled in. What is no code isn't quoted.
function filled(template,   name) {
  for (name in fill) {
    if (fill[name] == "") continue
    if (fill[name] ~ /`/ || fill[name] == "end of the file" || name == "kind" || name == "length")
      gsub("`[{]" name "[}]`", as_text(fill[name]), template)
    gsub("[{]" name "[}]", as_text(fill[name]), template)
  }
  return template
}

# A text as it is meant where sub and gsub replace something.
function as_text(said) { gsub(/\\/, "\\\\", said); gsub(/&/, "\\\\&", said); return said }

function printable(said) {
  gsub(/[\001-\010\013-\037\177]/, "?", said)
  return said
}

# The line of a place and a caret below it, at most 150 bytes of it.
function show_line(at_row, at_column,   line, before, from) {
  line = lines[at_row]
  sub(/[ \t\r]+$/, "", line)
  line = printable(line)
  before = substr(printable(lines[at_row]), 1, at_column - 1)
  if (length(line) > 150 && at_column > 100) {
    from = at_column - 75
    line = ".." substr(line, from)
    before = ".." substr(before, from)
  }
  if (length(line) > 150) line = substr(line, 1, 148) ".."
  gsub(/[\200-\277]/, "", before)
  gsub(/[^\t]/, " ", before)
  printf "%5d | %s\n      | %s^\n", at_row, line, before
}

# Prints a text in lines of about 100 bytes, four spaces before each; short pieces of code aren't broken.
function print_wrapped(said,   words, pieces, n, i, line) {
  n = split(said, pieces, "`")
  for (i = 2; i < n; i += 2) if (length(pieces[i]) <= 30) gsub(/ /, "\001", pieces[i])
  said = pieces[1]
  for (i = 2; i <= n; i++) said = said "`" pieces[i]
  n = split(said, words, " ")
  for (i = 1; i <= n; i++) {
    gsub(/\001/, " ", words[i])
    if (line != "" && length(line) + length(words[i]) > 95) { print "    " line; line = "" }
    line = line (line == "" ? "" : " ") words[i]
  }
  if (line != "") print "    " line
}
