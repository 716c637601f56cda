autocmd BufRead,BufNewFile *.clu setfiletype clu
