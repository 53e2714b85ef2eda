autocmd BufNewFile,BufRead *.dom setfiletype domino
