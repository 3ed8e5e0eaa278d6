" Chor. Written by tools/highlighting.
if exists('b:current_syntax')
  finish
endif
syntax match chorSign '\%(:=\|->\|==\|!=\|<=\|&&\|||\|=\||\|+\|-\|\*\|\/\|<\|!\)'
syntax match chorNumber '\v<[0-9]+>'
syntax keyword chorValue true false
syntax keyword chorSort int bool text
syntax keyword chorKeyword protocol service proc main start new if else call end show host then chor capacity
syntax match chorEscape contained '\\["\\n]'
syntax region chorText start=+"+ skip=+\\.+ end=+"+ oneline contains=chorEscape
syntax match chorComment '//.*$'
highlight default link chorKeyword Keyword
highlight default link chorSort Type
highlight default link chorValue Boolean
highlight default link chorNumber Number
highlight default link chorSign Operator
highlight default link chorEscape SpecialChar
highlight default link chorText String
highlight default link chorComment Comment
let b:current_syntax = 'chor'
