" Highlights inputs of the blackboard shell: the section %sources in the source language, %schema and %units as JSON,
" %bundle by its keywords. Copy the folder into ~/.vim, or name it in 'runtimepath'.
if exists('b:current_syntax')
  finish
endif

syntax include @bbJson syntax/json.vim
unlet! b:current_syntax

syntax match bbHeader /^%\(schema\|units\|sources\|bundle\)\r\?$/

syntax region bbDocument matchgroup=bbHeader start=/^%\(schema\|units\)\r\?$/ end=/^\ze%/ contains=@bbJson keepend
syntax region bbSources matchgroup=bbHeader start=/^%sources\r\?$/ end=/^\ze%/ keepend
      \ contains=bbComment,bbText,bbNumber,bbPart,bbStatement,bbChange,bbEvent,bbWord,bbTest,bbUnit,bbConstant,bbAfterDot
syntax region bbBundle matchgroup=bbHeader start=/^%bundle\r\?$/ end=/^\ze%/ contains=bbLine,bbHex keepend

syntax keyword bbPart contained source on when require obviate retrigger revalidate do native
syntax keyword bbStatement contained let if else with as for in find where rate decline answer
syntax keyword bbChange contained new set link unlink enter leave delete say
syntax keyword bbEvent contained create update quiescence
syntax keyword bbWord contained and or not min max low high size all
syntax keyword bbTest contained within covers overlaps less more is
syntax keyword bbUnit contained it ev
syntax keyword bbConstant contained true false
syntax match bbAfterDot /\.\s*[a-z][a-z0-9_]*/ contained
syntax match bbNumber /\<[0-9]\+\>/ contained
syntax region bbText start=/"/ skip=/\\./ end=/"/ oneline contained
syntax match bbComment +//.*$+ contained contains=@Spell

syntax match bbLine /^\(source\|when\|require\|obviate\|retrigger\|revalidate\|do\|native\)\>/ contained
syntax match bbHex /\<\x\{8,}\>/ contained

highlight default link bbHeader PreProc
highlight default link bbPart Structure
highlight default link bbStatement Statement
highlight default link bbChange Function
highlight default link bbEvent Label
highlight default link bbWord Operator
highlight default link bbTest Operator
highlight default link bbUnit Identifier
highlight default link bbConstant Boolean
highlight default link bbAfterDot Identifier
highlight default link bbNumber Number
highlight default link bbText String
highlight default link bbComment Comment
highlight default link bbLine Structure
highlight default link bbHex Number

let b:current_syntax = 'railcitron'
