" Vim syntax file. Language: PCF, as goi reads it
if exists('b:current_syntax')
  finish
endif
syntax case match
syntax match pcfName "[_[:alpha:]\x80-\U10ffff][_[:alnum:]\x80-\U10ffff]*"
syntax keyword pcfBinder fun fix
syntax keyword pcfChoice ifz then else
syntax keyword pcfOperator succ pred fst snd
syntax keyword pcfType nat
syntax match pcfNumber "\<\d\+"
syntax match pcfSign "->\|[-+*]"
syntax match pcfComment "#.*$" contains=@Spell
highlight default link pcfBinder Keyword
highlight default link pcfChoice Conditional
highlight default link pcfOperator Function
highlight default link pcfType Type
highlight default link pcfNumber Number
highlight default link pcfSign Operator
highlight default link pcfComment Comment
let b:current_syntax = 'pcf'
