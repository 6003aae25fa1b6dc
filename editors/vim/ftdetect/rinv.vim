autocmd BufRead,BufNewFile *.rinv setfiletype rinv
