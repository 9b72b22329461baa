" Files that end in .armc are protocols of armc, those that end in .props texts of properties, and those that end in .armct templates.
autocmd BufRead,BufNewFile *.armc,*.props setfiletype armc
autocmd BufRead,BufNewFile *.armct setfiletype armct
