" Vim syntax of Domino (docs/LANGUAGE.md)
if exists("b:current_syntax")
  finish
endif

syntax case match

syntax keyword dominoType int void
syntax keyword dominoStructure struct
syntax keyword dominoConditional if else

" Words that the language forbids
syntax keyword dominoForbidden while for do switch case default goto break continue return sizeof
syntax keyword dominoForbidden char short long unsigned signed float double enum union
syntax keyword dominoForbidden typedef static const volatile include

syntax match dominoOperator "[-+*/%<>=!~&|^?:]"
syntax match dominoDefine "#\_s*define\>"
syntax match dominoField "\.\_s*\zs\h\w*"
syntax match dominoHash "\<hash[1-4][a-h]\?\>\ze\_s*("

" A number, and what looks like one and is none, such as 07, 0x and 1a
syntax match dominoNotNumber "\<\d\w*\>"
syntax match dominoNumber "\<\%(0\|[1-9]\d*\|0[xX]\x\+\)\>"

syntax keyword dominoTodo contained TODO
syntax match dominoComment "//.*$" contains=dominoTodo
syntax region dominoComment start="/\*" end="\*/" contains=dominoTodo

syntax sync ccomment dominoComment

highlight default link dominoType Type
highlight default link dominoStructure Structure
highlight default link dominoConditional Conditional
highlight default link dominoForbidden Error
highlight default link dominoOperator Operator
highlight default link dominoDefine Define
highlight default link dominoField Identifier
highlight default link dominoHash Function
highlight default link dominoNotNumber Error
highlight default link dominoNumber Number
highlight default link dominoTodo Todo
highlight default link dominoComment Comment

let b:current_syntax = "domino"
