" Programs of szl. Made by tools/make/editors from the words and signs of the sources.
if exists("b:current_syntax")
  finish
endif

syntax keyword szlKeyword all break continue def do each else emit for function if of return some static type weight when while
syntax keyword szlType array bool bytes int map proto string table time
syntax keyword szlBoolean false true
syntax keyword szlPredeclared strfind haskey keys len input
syntax match szlKind /\v(<table\_s+)@<=(sum|maximum|minimum|set|collection)>/
syntax match szlEncoding /\v(\@\s*\w+\s+)@<=(zigzag|fixed32|fixed64)>/
syntax match szlOperator /\v\!\=|\&\&|\+\+|\-\-|\:\=|\<\-|\<\<|\<\=|\=\=|\>\=|\>\>|\|\||\!|\%|\&|\*|\+|\-|[/]|\<|\=|\>|\^|\||\~/
syntax match szlComment /#.*/ contains=@Spell
syntax match szlBadNumber /\v<\d\w*/
syntax match szlNumber /\v<%(0x[0-9A-Fa-f]+|0|[1-9][0-9]*)>/
syntax match szlBadEscape /\\./ contained
syntax match szlEscape /\v\\%([ntr\\\"']|x[0-9A-Fa-f]{2}|u[0-9A-Fa-f]{4})/ contained
syntax match szlCharacter /\v'([^'\\]|\\%([ntr\\\"']|x[0-9A-Fa-f]{2}|u[0-9A-Fa-f]{4}))'/ contains=szlEscape
syntax region szlString start=/\v<B"|"/ skip=/\\./ end=/"/ oneline contains=szlBadEscape,szlEscape

highlight default link szlKeyword Statement
highlight default link szlType Type
highlight default link szlBoolean Boolean
highlight default link szlPredeclared Function
highlight default link szlKind StorageClass
highlight default link szlEncoding StorageClass
highlight default link szlOperator Operator
highlight default link szlComment Comment
highlight default link szlNumber Number
highlight default link szlBadNumber Error
highlight default link szlEscape SpecialChar
highlight default link szlBadEscape Error
highlight default link szlCharacter Character
highlight default link szlString String

let b:current_syntax = "szl"
