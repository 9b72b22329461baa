" Vim syntax file for protocols of armc and texts of properties (docs/LANGUAGE.md). Each reserved word has the group of its kind; a byte that may stand in no
" protocol is shown as an error.
if exists('b:current_syntax')
  finish
endif

syntax case match
syntax iskeyword @,48-57,_

syntax keyword armcDeclaration protocol language cell array channel stack nextgroup=armcDeclared skipwhite skipempty
syntax keyword armcDeclaration lossy
syntax keyword armcDeclaration rule nextgroup=armcDeclared skipwhite skipempty
syntax keyword armcRow init
syntax keyword armcRow bad nextgroup=armcDeclared skipwhite skipempty
syntax keyword armcMove at pair ring two set send recv pop push spawn exit lose
syntax keyword armcGuard when all some in
syntax keyword armcRegion left right others
syntax keyword armcTable map
syntax keyword armcPattern any empty
let s:reserved = 'protocol|language|cell|array|channel|stack|lossy|init|rule|bad|any|empty|at|pair|ring|two|set|send|recv|pop|push'
let s:reserved .= '|spawn|exit|lose|when|all|some|left|right|others|in|map'
execute 'syntax match armcDeclared /\v<%(%(' . s:reserved . ')>)@!\w+>/ contained'
unlet s:reserved
syntax match armcSection /\<\w\+\>\ze\s*:/
syntax match armcArrow /->/
syntax match armcRepeat /[*+]/
syntax match armcSign /[{}:;]/
syntax match armcLetter /\<\w\+\>\%(\s*:\)\@!/
syntax match armcBadByte /[^[:alnum:]_{}:;*+# \t\r-]/
syntax match armcBadByte /->\@!/
syntax match armcComment /#.*$/ contains=armcExpect,@Spell
syntax match armcExpect /# expect: \zs\%(safe\|unsafe\|unknown\)\s*$/ contained
syntax match armcExpect /# \%(options\|never\): \zs.*$/ contained

highlight default link armcDeclaration Keyword
highlight default link armcDeclared Identifier
highlight default link armcRow Statement
highlight default link armcSection Type
highlight default link armcMove Function
highlight default link armcGuard Conditional
highlight default link armcRegion Special
highlight default link armcTable Keyword
highlight default link armcPattern Constant
highlight default link armcLetter Normal
highlight default link armcArrow Operator
highlight default link armcRepeat Operator
highlight default link armcSign Delimiter
highlight default link armcBadByte Error
highlight default link armcComment Comment
highlight default link armcExpect Special

let b:current_syntax = 'armc'
