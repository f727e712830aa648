" CEAL: a source text, and after the line %% its script
if exists('b:current_syntax') | finish | endif
syntax case match
syntax sync fromstart

syntax keyword cealConditional if else
syntax keyword cealRepeat while break continue
syntax keyword cealStatement return
syntax keyword cealFunction read write alloc modref
syntax keyword cealStructure ceal init struct
syntax keyword cealType int mod
syntax keyword cealConstant null self
syntax match cealNumber /\<\d\+\>/
syntax match cealOperator /->\|[-+*/%<>=!&|]\+/
syntax region cealComment start=+//+ end=+$+
syntax region cealComment start=+/\*+ end=+\*/+

syntax region cealScript matchgroup=cealMark start=/^%%\r\=$/ end=/\%$/ contains=cealLine,cealScriptComment
syntax match cealScriptComment /^\s*\/\/.*$/ contained
syntax match cealLine /^\s*[^ \t\/].*$/ contained contains=cealSession,cealCommand,cealScriptNumber,cealScriptConstant
syntax match cealSession /^@\h\w*/ contained
syntax match cealCommand /\%(^\s*\|^@\h\w*\s\+\)\zs\%(mod\|new\|set\|run\|propagate\|get\|show\|blocks\|steps\|work\|bound\|changed\)\>/ contained
syntax match cealScriptNumber /\%(\s\)\zs-\=\d\+\>/ contained
syntax keyword cealScriptConstant null int contained

highlight default link cealConditional Conditional
highlight default link cealRepeat Repeat
highlight default link cealStatement Statement
highlight default link cealFunction Function
highlight default link cealStructure Structure
highlight default link cealType Type
highlight default link cealConstant Constant
highlight default link cealNumber Number
highlight default link cealOperator Operator
highlight default link cealComment Comment
highlight default link cealMark PreProc
highlight default link cealScriptComment Comment
highlight default link cealSession Label
highlight default link cealCommand Statement
highlight default link cealScriptNumber Number
highlight default link cealScriptConstant Constant
let b:current_syntax = 'ceal'
