" Vim syntax for the assembler of nooks (docs/ASSEMBLER.md). This file is generated: checks/tables
if exists("b:current_syntax")
  finish
endif

syntax case match

syntax match nooksasmComment /;.*$/

" A definition is a name and a colon with nothing between.
syntax match nooksasmLabel /\<[A-Za-z_][A-Za-z0-9_]\{0,31}:/

syntax match nooksasmDirective /\.\(class\|entry\|text\|data\|word\)\>/
syntax keyword nooksasmClass block net sound

syntax keyword nooksasmMove LI LUI MOV LD ST
syntax keyword nooksasmSum ADD SUB AND OR XOR SHL SHR ADDI
syntax keyword nooksasmJump JMP BEQ BNE BLT JAL JR
syntax keyword nooksasmOutside IN OUT KCALL RET FAULT

syntax match nooksasmRegister /\<r\([0-9]\|1[0-5]\)\>/
syntax match nooksasmNumber /\<[0-9]\+\>/
syntax match nooksasmNumber /\<0x[0-9A-Fa-f]\+\>/

highlight default link nooksasmComment Comment
highlight default link nooksasmLabel Label
highlight default link nooksasmDirective PreProc
highlight default link nooksasmClass Type
highlight default link nooksasmMove Statement
highlight default link nooksasmSum Operator
highlight default link nooksasmJump Conditional
highlight default link nooksasmOutside Special
highlight default link nooksasmRegister Identifier
highlight default link nooksasmNumber Number

let b:current_syntax = "nooksasm"
