" Colours for fragments of cuestore, a subset of CUE: copy this folder's `syntax` and `ftdetect` into ~/.vim or ~/.config/nvim.
if exists('b:current_syntax')
  finish
endif

syntax match cueComment '//.*$' contains=@Spell
syntax region cueString start='"' skip='\\.' end='"' oneline contains=cueEscape
syntax match cueEscape '\\\([abfnrtv/\\"]\|u\x\{4}\|U\x\{8}\)' contained
syntax match cueNumber '\<\(0[xX]\x\(_\?\x\)*\|0o\o\(_\?\o\)*\|0b[01]\(_\?[01]\)*\|0\|[1-9]\d*\(_\d\+\)*\)\>'
syntax keyword cueConstant true false null
syntax keyword cueType int string bool int8 int16 int32 int64 uint uint8 uint16 uint32
syntax keyword cueFunction close
syntax keyword cueKeyword package
syntax match cueDefinition '#\k\+'
syntax match cueLabel '\("\(\\.\|[^"\\]\)*"\|\k\+\)\ze[?!]\?:' contains=cueEscape
syntax match cueBottom '_|_'
syntax match cueOperator '[&|*<>=!?+-]\|\.\.\.'

highlight default link cueComment Comment
highlight default link cueString String
highlight default link cueEscape SpecialChar
highlight default link cueNumber Number
highlight default link cueConstant Boolean
highlight default link cueType Type
highlight default link cueFunction Function
highlight default link cueKeyword Keyword
highlight default link cueDefinition Structure
highlight default link cueLabel Identifier
highlight default link cueBottom Exception
highlight default link cueOperator Operator

let b:current_syntax = 'cue'
