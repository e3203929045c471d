" Theories of ddl: facts, rules and pairs, one on a line. What is shown as an error puts its line outside the grammar.
if exists('b:current_syntax')
  finish
endif
syntax case match

" (of two that begin at one place the later one counts: an arrow is no sign without meaning)
syntax match dflError /[^A-Za-z0-9_ \t>:,\[\]#-]/
syntax match dflAtom /\<\h\w*\>/
syntax match dflNegative /-\s*\h\w*\>/
syntax match dflMode /\[\s*\h\w*\s*\]/
syntax match dflLabel /^\s*\h\w*\ze\s*\%(\[\s*\h\w*\s*\]\s*\)\=:/
syntax match dflPair /^\s*\h\w*\s*>\s*\h\w*\ze\s*\%(#.*\)\=$/ contains=dflAbove
syntax match dflAbove />/ contained
syntax match dflFact />>/
syntax match dflStrict /->/
syntax match dflDefeasible /=>/
syntax match dflDefeater /\~>/
" a name that begins with a digit, and a hyphen in a name
syntax match dflError /\<\d\k*/
syntax match dflError /\k\@1<=-\ze\k/
syntax match dflComment /#.*$/ contains=dflTodo
syntax keyword dflTodo TODO FIXME contained

highlight default link dflError Error
highlight default link dflAtom Identifier
highlight default link dflNegative Constant
highlight default link dflMode Type
highlight default link dflLabel Label
highlight default link dflPair Label
highlight default link dflAbove Operator
highlight default link dflFact Statement
highlight default link dflStrict Operator
highlight default link dflDefeasible Operator
highlight default link dflDefeater Operator
highlight default link dflComment Comment
highlight default link dflTodo Todo

let b:current_syntax = 'dfl'
