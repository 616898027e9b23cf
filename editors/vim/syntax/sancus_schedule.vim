" Lines of a schedule, and for people.
" Copy this folder's syntax/ and ftdetect/ to ~/.vim, or add the folder to 'runtimepath'. editors/make.py made this file.
if exists("b:current_syntax")
  finish
endif

syntax match sancusNumber "\v<(0x[0-9A-Fa-f]+|[0-9]+)>"
syntax match sancusHex "\v<[0-9A-Fa-f]{8,}>"
syntax match sancusAct "\v^\s*(answer|ask|asm|bytes|call|finish|forge|give|irq|items|load|put|regs|reset|run|sense|set|take)>"
syntax match sancusEase "\v^\s*(boots|carry|deploy|flow|packets|sample|settle|windows)>"
syntax match sancusNote "\v^\s*#.*$"
syntax match sancusWanted "\v^#[>:].*$"

highlight default link sancusNumber Number
highlight default link sancusHex Constant
highlight default link sancusAct Statement
highlight default link sancusEase Function
highlight default link sancusNote Comment
highlight default link sancusWanted Special

let b:current_syntax = "sancus_schedule"
