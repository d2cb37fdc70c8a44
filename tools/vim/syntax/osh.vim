" Vim syntax file for flows of osh. Copy tools/vim/* to ~/.vim, or add that folder to runtimepath.
if exists("b:current_syntax")
  finish
endif

syn case match

syn match oshComment "#.*$" contains=@Spell
syn region oshComment start="/\*" end="\*/" contains=@Spell

syn match oshSign "[|;]"
syn match oshDataSet "[<>]\_s*\%(\[[^]]*\]\_s*\)\?[A-Za-z_][A-Za-z0-9_.]*" contains=oshMethod,oshArrow
syn match oshArrow "[<>]" contained

syn keyword oshOperator import export copy filter transform modify switch tsort remdup group
syn keyword oshOperator innerjoin leftouterjoin rightouterjoin fullouterjoin lookup
syn keyword oshOperator merge changecapture funnel dsread dswrite
syn keyword oshDirective nopart nosort

" options, and the words that one of them takes without quotes
syn match oshOption "-[A-Za-z][A-Za-z0-9_]*"
syn keyword oshChoice continue drop fail reject

" methods and marks in brackets
syn region oshMethod start="\[" end="\]" contains=oshMethodKind,oshMark,oshFlag,oshDirection,oshComment
syn keyword oshMethodKind auto same rr hash modulus any entire ordered merge contained
syn keyword oshMark seq par contained
syn keyword oshFlag set clear prop contained
syn keyword oshDirection desc contained

" values in quotes: schemas, keys and expressions
syn region oshQuoted start=+"+ end=+"+ contains=oshType,oshSchemaWord,oshDirection,oshFunction,oshNumber
syn region oshQuoted start=+'+ end=+'+ contains=oshType,oshSchemaWord,oshDirection,oshFunction,oshNumber,oshText
syn region oshText start=+"+ end=+"+ contained
syn keyword oshSchemaWord record nullable contained
syn keyword oshType int8 int16 int32 int64 uint8 uint16 uint32 uint64 decimal string contained
syn match oshType "\<date\>\ze\s*[;)=]" contained
syn match oshFunction "\<\%(isnull\|ifnull\|if\|abs\|sign\|round\|least\|greatest\|length\|concat\|substr\|trim\|text\|year\|month\|day\|daynumber\|adddays\|date\)\>\ze\s*(" contained
syn match oshNumber "\<\d\+\%(\.\d\+\)\?\>"

hi def link oshComment Comment
hi def link oshSign Delimiter
hi def link oshArrow Delimiter
hi def link oshDataSet Identifier
hi def link oshOperator Statement
hi def link oshDirective PreProc
hi def link oshOption Special
hi def link oshChoice Constant
hi def link oshMethodKind Type
hi def link oshMark StorageClass
hi def link oshFlag StorageClass
hi def link oshDirection StorageClass
hi def link oshQuoted String
hi def link oshText Constant
hi def link oshSchemaWord Keyword
hi def link oshType Type
hi def link oshFunction Function
hi def link oshNumber Number

let b:current_syntax = "osh"
