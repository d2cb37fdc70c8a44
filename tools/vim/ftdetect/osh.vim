autocmd BufNewFile,BufRead *.osh setfiletype osh
