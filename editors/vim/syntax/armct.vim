" Vim syntax file for templates of protocols (docs/TEMPLATES.md): that of protocols, with the words and signs that templates have more.
if exists('b:current_syntax')
  finish
endif
runtime! syntax/armc.vim
unlet b:current_syntax

syntax keyword armcTemplate let for nextgroup=armcDeclared skipwhite skipempty
syntax keyword armcTemplate if same
syntax match armcOperator /[()%=<>]/
syntax match armcOperator /->\@!/
syntax match armcOperator /\.\.\|[=!<>]=/
syntax match armcExpect /# values: \zs.*$/ contained

highlight default link armcTemplate Repeat
highlight default link armcOperator Operator

let b:current_syntax = 'armct'
