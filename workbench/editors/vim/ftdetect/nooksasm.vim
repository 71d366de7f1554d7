" Driver texts of nooks: their first line that is not a comment names a class.
autocmd BufRead,BufNewFile *.asm if getline(search('^\s*[^; \t]', 'cnw')) =~# '^\s*\.class\s' | set filetype=nooksasm | endif
