" Colours for programs of psyc.
if exists("b:current_syntax")
  finish
endif

syntax keyword psyType agent clock input int int8 int16 int32 int64 stream temporal tick
syntax keyword psyStatement advance body else if return send while
syntax keyword psyWord after budget depth keep max of on processor to
syntax keyword psyCall past ready take
syntax match psyNumber "\<\%(0\|[1-9][0-9]*\)\>"
syntax match psyOperator "<<\|>>\|<=\|>=\|==\|!=\|&&\|||\|[-+*/%<>=&^|~!]"
syntax match psyComment "//.*$"
syntax region psyComment start="/\*" end="\*/"

highlight default link psyType Type
highlight default link psyStatement Statement
highlight default link psyWord Keyword
highlight default link psyCall Function
highlight default link psyNumber Number
highlight default link psyOperator Operator
highlight default link psyComment Comment

let b:current_syntax = "psy"
