" Settings for templates of armc: comments, and :make as a check of what the template writes (armc-expand --check).
if exists('b:did_ftplugin')
  finish
endif
let b:did_ftplugin = 1
setlocal commentstring=#\ %s comments=:#
setlocal errorformat=armc-expand:\ template:\ line\ %l\ column\ %c:\ %m
let &l:makeprg = 'armc-expand --check % 2>&1 >/dev/null'
let b:undo_ftplugin = 'setlocal commentstring< comments< errorformat< makeprg<'
