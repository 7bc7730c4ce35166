autocmd BufNewFile,BufRead *.cga setfiletype cga_city
