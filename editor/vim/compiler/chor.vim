" :make checks the file and goes to the place of the first rule that it violates. The program is $CHOR, or chor.
if exists('current_compiler')
  finish
endif
let current_compiler = 'chor'
let s:program = empty($CHOR) ? 'chor' : shellescape($CHOR)
" An endpoint file has no check; a run of one event reads it and refuses what exec refuses.
let s:words = &filetype ==# 'chorendpoints' ? 'exec %:S --steps 1' : 'check %:S'
execute 'CompilerSet makeprg=' .. escape(s:program .. ' ' .. s:words, ' \|"')
CompilerSet errorformat=%f:%l:%c:\ %m,%-G%.%#
