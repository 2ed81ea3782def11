autocmd BufRead,BufNewFile *.lus setfiletype lus
