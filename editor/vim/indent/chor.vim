" Two spaces for each brace that is open, as in canonical text.
if exists('b:did_indent')
  finish
endif
let b:did_indent = 1
setlocal indentexpr=ChorIndent() indentkeys=0},!^F,o,O
let b:undo_indent = 'setlocal indentexpr< indentkeys<'

if exists('*ChorIndent')
  finish
endif

" A line without its texts and its comment.
function! s:Bare(number)
  return substitute(getline(a:number), '"\%([^"\\]\|\\.\)*"\|//.*$', '', 'g')
endfunction

" How many braces a line opens more than it closes; those that it begins with are closed by its own indent.
function! s:Opened(number)
  let line = substitute(s:Bare(a:number), '^[ \t}]*', '', '')
  return count(line, '{') - count(line, '}')
endfunction

function! ChorIndent()
  let before = prevnonblank(v:lnum - 1)
  let closes = count(matchstr(s:Bare(v:lnum), '^[ \t}]*'), '}')
  return before == 0 ? 0 : indent(before) + shiftwidth() * (s:Opened(before) - closes)
endfunction
