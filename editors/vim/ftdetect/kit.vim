" Inputs of the program kit: by their names, or by their first line.
autocmd BufNewFile,BufRead *.kit setfiletype kit
autocmd BufNewFile,BufRead * if !did_filetype() && getline(1) ==# 'kit 1' | setfiletype kit | endif
