autocmd BufNewFile,BufRead *.chor setfiletype chor
autocmd BufNewFile,BufRead *.endpoints setfiletype chorendpoints
" Files of other languages end so too, and vim knows some (*.run is AMPL): the first line decides.
autocmd BufNewFile,BufRead *.run,*.events
      \ if getline(1) =~# '^\%(\d\+ \l\+ \S\|\%(end\|limit\|stuck\) \d\)' | set filetype=chortranscript | endif
