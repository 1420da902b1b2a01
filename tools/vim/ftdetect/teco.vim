" Files of TECO text in the readable form.
autocmd BufRead,BufNewFile *.tes setfiletype teco
