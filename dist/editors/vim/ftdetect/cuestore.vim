autocmd BufRead,BufNewFile *.cue if &filetype ==# '' | setfiletype cue | endif
