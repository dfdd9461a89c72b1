" The tokens of Inko, as docs/LANGUAGE.md has them. tests/editors compares the keywords and the built-in types.
if exists('b:current_syntax')
  finish
endif

" A name may end in a question mark, so that `if?` is no keyword.
syntax iskeyword a-z,A-Z,48-57,_,?
syntax case match
" A text may go over any number of lines.
syntax sync fromstart

syntax keyword inkoConditional if else match case
syntax keyword inkoRepeat while loop break next
syntax keyword inkoStatement return throw try
syntax keyword inkoDeclaration type trait impl for enum fn let import
syntax keyword inkoModifier async pub mut move static ref uni recover
syntax keyword inkoWordOperator and or
syntax keyword inkoBoolean true false
syntax keyword inkoConstantWord nil self

syntax keyword inkoBuiltinType Int Bool String Nil Never Option Result Array Tuple2 Tuple3 Stdout Future Promise Self

" Of two matches at one place the later one of this file is taken.
syntax match inkoPunctuation "[()\[\]{},.:]"
syntax match inkoOperator "->\|:=\|[=!<>]=\|<<\|>>\|[-+*/%]=\|[-+*/%&|^<>=]"
syntax match inkoConstant "\<\u\w*"
syntax match inkoField "@[a-z_]\w*"
syntax match inkoInteger "\<\d[0-9_]*"
syntax match inkoInteger "\<0x_*\x[0-9A-Fa-f_]*"
syntax match inkoWildcard "\<_\>"
" Behind a dot a keyword is a name.
syntax match inkoMember "\.\s*[a-z_]\w*?\=" contains=inkoPunctuation
syntax match inkoComment "#.*" contains=@Spell

" A text has escapes, and expressions between `${` and the first `}` that closes no brace of theirs.
syntax match inkoBadEscape "\\" contained
syntax match inkoEscape +\\[nt\\'"$]+ contained
syntax region inkoText start=+'+ end=+'+ contains=inkoBadEscape,inkoEscape,inkoInterpolation,@Spell
syntax region inkoText start=+"+ end=+"+ contains=inkoBadEscape,inkoEscape,inkoInterpolation,@Spell
syntax region inkoInterpolation matchgroup=inkoInterpolationMark start="\${" end="}" contained contains=@inkoCode
syntax region inkoBraces matchgroup=inkoPunctuation start="{" end="}" contained transparent contains=@inkoCode
syntax cluster inkoCode contains=inkoConditional,inkoRepeat,inkoStatement,inkoDeclaration,inkoModifier,inkoWordOperator
syntax cluster inkoCode add=inkoBoolean,inkoConstantWord,inkoBuiltinType,inkoOperator,inkoPunctuation,inkoConstant
syntax cluster inkoCode add=inkoField,inkoInteger,inkoWildcard,inkoMember,inkoComment,inkoText,inkoBraces

highlight default link inkoConditional Conditional
highlight default link inkoRepeat Repeat
highlight default link inkoStatement Statement
highlight default link inkoDeclaration Keyword
highlight default link inkoModifier StorageClass
highlight default link inkoWordOperator Operator
highlight default link inkoBoolean Boolean
highlight default link inkoConstantWord Constant
highlight default link inkoBuiltinType Type
highlight default link inkoConstant Structure
highlight default link inkoField Identifier
highlight default link inkoInteger Number
highlight default link inkoWildcard Special
highlight default link inkoOperator Operator
highlight default link inkoPunctuation Delimiter
highlight default link inkoComment Comment
highlight default link inkoText String
highlight default link inkoEscape SpecialChar
highlight default link inkoBadEscape Error
highlight default link inkoInterpolationMark Delimiter

let b:current_syntax = 'inko'
