autocmd BufRead,BufNewFile *.bp setfiletype bebop
