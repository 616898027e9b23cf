autocmd BufNewFile,BufRead *.sancus setfiletype sancus
autocmd BufNewFile,BufRead *.schedule setfiletype sancus_schedule
autocmd BufNewFile,BufRead *.people setfiletype sancus_schedule
autocmd BufNewFile,BufRead *.readings setfiletype sancus_schedule
autocmd BufNewFile,BufRead *.property setfiletype sancus_property
