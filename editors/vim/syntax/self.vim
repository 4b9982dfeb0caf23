" Vim syntax file for the world files of selfdb, with the tokens of docs/LANGUAGE.md.
" To use it, copy the folders syntax and ftdetect into ~/.vim, or put this folder's parent into 'runtimepath'.

if exists("b:current_syntax")
  finish
endif

syntax case match
syntax sync minlines=200

" what begins no token: other bytes, capital words without a colon, digits that run into letters or a fraction
syntax match selfBad "[^[:space:]]"
syntax match selfBad "\<\u\w*"
syntax match selfBad "\<\d\+\%(\.\d\|[A-Za-z_]\)\w*"

syntax match selfBracket "[()\[\]]"
syntax match selfBar "|"
syntax match selfPeriod "\."
syntax match selfReturn "\^"
syntax match selfOperator "[-+*/%<>=~!&@,?#]\+"
syntax match selfAssign "<-\%([-+*/%<>=~!&@,?#]\)\@!"

" names; a message of names has no colour of its own
syntax match selfName "\<\l\w*"
syntax keyword selfSelf self
syntax keyword selfCore lobby nil true false
syntax keyword selfTraits integerTraits stringTraits vectorTraits blockTraits

syntax match selfPrimitive "\<_\w\+"
syntax match selfKeyword "\<\l\w*:"
syntax match selfKeyword "\<\u\w*:"
syntax match selfPrimitiveKeyword "\<_\w\+:"
syntax match selfArgument ":\l\w*"

" a name and a period, with a lower-case letter or an operator directly behind
syntax match selfDelegate "\<\l\w*\.\%([a-z]\|[-+*/%<>=~!&@,?#]\)\@="

" a minus sign belongs to the digits where no value and no operator stands before it
syntax match selfInteger "\<\d\+\%(\w\|\.\d\)\@!"
syntax match selfInteger "\%(\%([A-Za-z0-9_')\]]\s*\|[-+*/%<>=~!&@,?#]\)\)\@<!-\d\+\%(\w\|\.\d\)\@!"

syntax match selfBadEscape "\\\_." contained
syntax match selfEscape "\\[ntr0\\'\"]" contained
syntax region selfString start="'" skip="\\\_." end="'" contains=selfEscape,selfBadEscape
syntax region selfComment start=+"+ end=+"+ contains=@Spell

highlight default link selfBad Error
highlight default link selfBadEscape Error
highlight default link selfComment Comment
highlight default link selfString String
highlight default link selfEscape SpecialChar
highlight default link selfInteger Number
highlight default link selfKeyword Function
highlight default link selfOperator Operator
highlight default link selfAssign Operator
highlight default link selfPrimitive Special
highlight default link selfPrimitiveKeyword Special
highlight default link selfArgument Identifier
highlight default link selfDelegate Structure
highlight default link selfSelf Keyword
highlight default link selfCore Constant
highlight default link selfTraits Type
highlight default link selfReturn Statement
highlight default link selfBar Delimiter
highlight default link selfBracket Delimiter
highlight default link selfPeriod Delimiter

let b:current_syntax = "self"
