" Chor transcript. Written by tools/highlighting.
if exists('b:current_syntax')
  finish
endif
syntax match chortranscriptNumber '\v-?<[0-9]+>'
syntax keyword chortranscriptValue true false
syntax match chortranscriptRoles '\v[A-Za-z_][A-Za-z0-9_]*\>[A-Za-z_][A-Za-z0-9_]*'
syntax match chortranscriptProcess '\v\%[0-9]+'
syntax match chortranscriptSession '\v#[0-9]+'
syntax match chortranscriptLast '\v^(end|limit|stuck)>'
syntax match chortranscriptLine '\v^[0-9]+'
syntax match chortranscriptKeyword '\v(^[0-9]+ )@<=(start|send|recv|pick|branch|give|gain|test|set|show|host)>'
syntax match chortranscriptEscape contained '\\["\\n]'
syntax region chortranscriptText start=+"+ skip=+\\.+ end=+"+ oneline contains=chortranscriptEscape
highlight default link chortranscriptKeyword Keyword
highlight default link chortranscriptLine LineNr
highlight default link chortranscriptLast Statement
highlight default link chortranscriptSession Identifier
highlight default link chortranscriptProcess Special
highlight default link chortranscriptRoles Type
highlight default link chortranscriptValue Boolean
highlight default link chortranscriptNumber Number
highlight default link chortranscriptEscape SpecialChar
highlight default link chortranscriptText String
let b:current_syntax = 'chortranscript'
