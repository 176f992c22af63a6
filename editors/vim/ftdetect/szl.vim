autocmd BufRead,BufNewFile *.szl setfiletype szl
