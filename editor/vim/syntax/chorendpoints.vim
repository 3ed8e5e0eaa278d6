" Chor endpoint programs. Written by tools/highlighting.
if exists('b:current_syntax')
  finish
endif
syntax match chorendpointsSign '\%(:=\|->\|==\|!=\|<=\|&&\|||\|=\||\|+\|-\|\*\|\/\|<\|!\)'
syntax match chorendpointsNumber '\v<[0-9]+>'
syntax keyword chorendpointsValue true false
syntax keyword chorendpointsKeyword endpoints channel procedure service process join send recv pick give gain set show host branch if else call end
syntax match chorendpointsEscape contained '\\["\\n]'
syntax region chorendpointsText start=+"+ skip=+\\.+ end=+"+ oneline contains=chorendpointsEscape
syntax match chorendpointsComment '//.*$'
highlight default link chorendpointsKeyword Keyword
highlight default link chorendpointsValue Boolean
highlight default link chorendpointsNumber Number
highlight default link chorendpointsSign Operator
highlight default link chorendpointsEscape SpecialChar
highlight default link chorendpointsText String
highlight default link chorendpointsComment Comment
let b:current_syntax = 'chorendpoints'
