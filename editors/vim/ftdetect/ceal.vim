autocmd BufRead,BufNewFile *.ceal setfiletype ceal
