autocmd BufRead,BufNewFile *.dpj setfiletype dpj
