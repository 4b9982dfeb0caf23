" World files of selfdb.
autocmd BufRead,BufNewFile *.self setfiletype self
