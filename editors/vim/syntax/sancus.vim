" The input of ./sancus: a deployment in TOML with sources of the handler language, a line %%, and a schedule.
" Copy this folder's syntax/ and ftdetect/ to ~/.vim, or add the folder to 'runtimepath'. editors/make.py made this file.
if exists("b:current_syntax")
  finish
endif

syntax match sancusTable "\v^\s*\[\[?[a-z]+\]\]?"
syntax match sancusKey "\v<(at|connection|data|device|from|key|kind|module|name|node|provider|secret|source|text|to)>\ze\s*\="
syntax match sancusNumber "\v<(0x[0-9A-Fa-f]+|[0-9]+)>"
syntax region sancusString start=/"/ skip=/\\./ end=/"/ oneline
syntax match sancusComment "\v#.*$"
syntax region sancusSource matchgroup=sancusQuote start=/"""/ end=/"""/ contains=sancusWord,sancusNumber,sancusOperator,sancusRemark
syntax region sancusSchedule matchgroup=sancusMark start=/^%%\r\?$/ end=/\%$/ contains=sancusNumber,sancusHex,sancusAct,sancusEase,sancusNote,sancusWanted
syntax match sancusWord contained "\v<(actuator|array|else|emit|if|input|let|on|output|repeat|sample|send|sensor|var)>"
syntax match sancusOperator contained "\v[-+|^*&~!<>=]"
syntax match sancusRemark contained "\v//.*$"
syntax match sancusHex contained "\v<[0-9A-Fa-f]{8,}>"
syntax match sancusAct contained "\v^\s*(answer|ask|asm|bytes|call|finish|forge|give|irq|items|load|put|regs|reset|run|sense|set|take)>"
syntax match sancusEase contained "\v^\s*(boots|carry|deploy|flow|packets|sample|settle|windows)>"
syntax match sancusNote contained "\v^\s*#.*$"
syntax match sancusWanted contained "\v^#[>:].*$"

highlight default link sancusTable Structure
highlight default link sancusKey Identifier
highlight default link sancusNumber Number
highlight default link sancusComment Comment
highlight default link sancusWord Keyword
highlight default link sancusOperator Operator
highlight default link sancusRemark Comment
highlight default link sancusHex Constant
highlight default link sancusAct Statement
highlight default link sancusEase Function
highlight default link sancusNote Comment
highlight default link sancusWanted Special
highlight default link sancusString String
highlight default link sancusQuote Delimiter
highlight default link sancusMark PreProc

let b:current_syntax = "sancus"
