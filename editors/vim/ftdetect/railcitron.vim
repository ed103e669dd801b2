" Other files end in .bb too, so the first line decides.
autocmd BufNewFile,BufRead *.bb if getline(1) =~# '^%schema' | set filetype=railcitron | endif
