autocmd BufNewFile,BufRead *.case setfiletype emtp
