" Syntax of lus programs for Vim, made by editors/check --write from the compiler's tables of words and symbols.
if exists("b:current_syntax")
  finish
endif

syntax case match
syntax keyword lusDeclaration node function returns var let tel type const
syntax keyword lusType bool int enum struct
syntax keyword lusTruth true false
syntax keyword lusMemory pre fby
syntax keyword lusClock when merge
syntax keyword lusChoice if then else
syntax keyword lusWordOperator not nor or xor and div mod
syntax keyword lusLeftOut real current assert extern unsafe condact package model with include operator
syntax match lusSymbol /<>\|<=\|>=\|->\|=>\|=\|<\|>\|+\|-\|\*\|\/\|#/
syntax match lusNumber /\<[0-9]\+/
syntax match lusComment /--.*$/
syntax region lusComment start=/\/\*/ end=/\*\//
syntax region lusComment start=/(\*/ end=/\*)/

highlight default link lusDeclaration Keyword
highlight default link lusType Type
highlight default link lusTruth Boolean
highlight default link lusMemory Special
highlight default link lusClock Statement
highlight default link lusChoice Conditional
highlight default link lusWordOperator Operator
highlight default link lusLeftOut Error
highlight default link lusSymbol Operator
highlight default link lusNumber Number
highlight default link lusComment Comment

let b:current_syntax = "lus"
