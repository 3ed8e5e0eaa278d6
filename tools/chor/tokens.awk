# The tokens of a source or an endpoint file. Sets lines[1..line_count], and of each token number i its text[i], its kind[i]
# (word, keyword, number, text, mark, bad, last) and its place row[i], column[i] in bytes; token_count counts them. What is no
# token becomes one of the kind bad, so that files with faults are read to their end. Needs LC_ALL=C.

function read_tokens(file,   line, i, n, words) {
  n = split("protocol service proc main start new if else call end show host then int bool text true false chor capacity", words)
  for (i = 1; i <= n; i++) is_keyword[words[i]] = 1
  line_count = 0
  token_count = 0
  while ((getline line < file) > 0) {
    lines[++line_count] = line
    cut_line(line)
  }
  close(file)
  add_token("", "last", line_count + 1, 1)
}

function add_token(word, sort, at_row, at_column) {
  token_count++
  text[token_count] = word
  kind[token_count] = sort
  row[token_count] = at_row
  column[token_count] = at_column
}

function cut_line(line,   at, rest, length_of, sort) {
  at = 1
  while (at <= length(line)) {
    rest = substr(line, at)
    if (match(rest, /^[ \t\r]+/)) { at += RLENGTH; continue }
    if (substr(rest, 1, 2) == "//") return
    sort = kind_of(rest)
    length_of = RLENGTH
    if (sort == "word" && substr(rest, 1, length_of) in is_keyword) sort = "keyword"
    add_token(substr(rest, 1, length_of), sort, line_count, at)
    at += length_of
  }
}

# The kind of the first token of a line, whose length is RLENGTH then.
function kind_of(rest) {
  if (match(rest, /^[A-Za-z_][A-Za-z_0-9]*/)) return "word"
  if (match(rest, /^[0-9]+/)) return "number"
  if (match(rest, /^"([^"\\]|\\.)*"/)) return "text"
  if (match(rest, /^(:=|->|==|!=|<=|&&|\|\|)/)) return "mark"
  if (match(rest, /^[{}()\[\],;:.=|@+\-*\/<!]/)) return "mark"
  match(rest, /^(\357\273\277|[\300-\377][\200-\277]*|.)/)
  return "bad"
}

# The number of the token at a place; 0 where none begins there.
function token_at(at_row, at_column,   i) {
  for (i = 1; i <= token_count; i++)
    if (row[i] == at_row && column[i] == at_column) return i
  if (at_row > line_count || at_column > length(lines[at_row])) return token_count
  return 0
}

# The number of the token that closes the bracket at token i.
function closing(i,   depth, open, close_mark) {
  open = text[i]
  close_mark = open == "{" ? "}" : open == "(" ? ")" : "]"
  for (; i < token_count; i++) {
    if (text[i] == open) depth++
    if (text[i] == close_mark && --depth == 0) return i
  }
  return token_count
}

# The text of the tokens from i to before j, with a space where the source has one.
function words_between(i, j,   said) {
  for (; i < j; i++) {
    said = said text[i]
    if (i + 1 < j && (row[i + 1] != row[i] || column[i + 1] > column[i] + length(text[i]))) said = said " "
  }
  return said
}

# The text of the tokens from i to before j, with a space after each.
function spaced(i, j,   said) {
  for (; i < j; i++) said = said text[i] " "
  return said
}

function quoted(word) { return "`" word "`" }

# A list of words, as in "a, b and c"; where nothing is in the list, `none`.
function listed(words, none,   parts, n, i, said) {
  n = split(words, parts, " ")
  if (n == 0) return none
  said = quoted(parts[1])
  for (i = 2; i <= n; i++) said = said (i == n ? " and " : ", ") quoted(parts[i])
  return said
}

function has_word(words, word) { return index(" " words " ", " " word " ") > 0 }

function count_of(words,   parts) { return split(words, parts, " ") }
