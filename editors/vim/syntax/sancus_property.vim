" A property: handlers that stand at items of a trace.
" Copy this folder's syntax/ and ftdetect/ to ~/.vim, or add the folder to 'runtimepath'. editors/make.py made this file.
if exists("b:current_syntax")
  finish
endif

syntax match sancusKind "\v<(attested|drain|out|protect|raw|read|reset|sense|take)>"
syntax match sancusWord "\v<(actuator|array|assume|else|emit|fail|if|input|let|on|output|repeat|sample|send|sensor|var)>"
syntax match sancusNumber "\v<(0x[0-9A-Fa-f]+|[0-9]+)>"
syntax match sancusOperator "\v[-+|^*&~!<>=]"
syntax match sancusRemark "\v//.*$"

highlight default link sancusKind Type
highlight default link sancusWord Keyword
highlight default link sancusNumber Number
highlight default link sancusOperator Operator
highlight default link sancusRemark Comment

let b:current_syntax = "sancus_property"
