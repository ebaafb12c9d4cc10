autocmd BufRead,BufNewFile *.psy set filetype=psy
