" Syntax of concurrent Boolean programs: the tokens of docs/language.md.
if exists("b:current_syntax")
  finish
endif

syntax case match
syntax keyword bebopDeclaration decl begin end
syntax keyword bebopStatement skip goto return print
syntax keyword bebopConditional if then else fi
syntax keyword bebopRepeat while do od
syntax keyword bebopAssertion assert assume
syntax match bebopConstant "\<[01]\+\>"
syntax match bebopOperator ":=\|=>\|!=\|[|^&=!]"
syntax match bebopChoice "?"
syntax match bebopProcedure "\<\h\w*\ze\s*("
syntax match bebopLabel "\<\h\w*\ze\s*:\_[^=]"
syntax match bebopBracedName "{[ -|~]*}"
syntax match bebopComment "//.*$" contains=@Spell

highlight default link bebopDeclaration Keyword
highlight default link bebopStatement Statement
highlight default link bebopConditional Conditional
highlight default link bebopRepeat Repeat
highlight default link bebopAssertion Exception
highlight default link bebopConstant Number
highlight default link bebopOperator Operator
highlight default link bebopChoice Special
highlight default link bebopProcedure Function
highlight default link bebopLabel Label
highlight default link bebopBracedName Identifier
highlight default link bebopComment Comment

let b:current_syntax = "bebop"
