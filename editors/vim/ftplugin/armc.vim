" Settings for protocols of armc: comments, and :make as a check of the text (armc show).
if exists('b:did_ftplugin')
  finish
endif
let b:did_ftplugin = 1
setlocal commentstring=#\ %s comments=:#
setlocal errorformat=armc:\ protocol:\ line\ %l\ column\ %c:\ %m
let &l:makeprg = 'armc show % 2>&1 >/dev/null'
let b:undo_ftplugin = 'setlocal commentstring< comments< errorformat< makeprg<'
