" A file whose name ends in .inko is a module of Inko.
autocmd BufNewFile,BufRead *.inko setfiletype inko
