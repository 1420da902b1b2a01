" TECO text in the readable form: $ is ESC, and ^$ a dollar. Copy the folders syntax and ftdetect to ~/.vim, as by
" cp -r tools/vim/syntax tools/vim/ftdetect ~/.vim; tools/vim/try tries this file.
if exists('b:current_syntax')
  finish
endif

syn case ignore
syn sync fromstart

" What stands between texts. A later item wins where two begin at the same place.
syn match tecoNumber /\d\+/
syn match tecoOperator /[-+*\/&#(),]/
syn match tecoCommand /PW\|[ABCDHJKLPRTVYZ.\\]\|=\{1,3}\|E[CFKX]\|\^[SXYT]/
syn match tecoModifier /[:@]/
syn match tecoEscape /\$/
syn match tecoIteration /[<>;]\|F>/
syn match tecoConditional /"[A-Z=<>]\|['|]\|F['|]/

" A command that takes a register, and its name.
syn match tecoCommand /[QUXGM%[\]]/ nextgroup=tecoRegister
syn match tecoRegister /[A-Z0-9]/ contained

" Controls in texts.
syn match tecoDollar /\^\$/ contained
syn match tecoControl /\^\%([^EQN$]\|Q\_.\|E[ADRVWLS]\|EQ[A-Z0-9]\|N\%(\^E[ADRVWL]\|\^Q\_.\|\^[XS]\|[^^]\)\)/ contained
syn cluster tecoInText contains=tecoDollar
syn cluster tecoFound contains=tecoDollar,tecoControl

" Texts up to an ESC.
syn region tecoText matchgroup=tecoCommand start=/I\|\t/ skip=/\^\$/ matchgroup=tecoEscape end=/\$/ contains=@tecoInText
syn region tecoName matchgroup=tecoCommand start=/E[RW]/ skip=/\^\$/ matchgroup=tecoEscape end=/\$/ contains=@tecoInText
syn region tecoTag matchgroup=tecoCommand start=/O/ skip=/\^\$/ matchgroup=tecoEscape end=/\$/ contains=@tecoInText
syn region tecoSearch matchgroup=tecoCommand start=/[SN]/ skip=/\^\$/ matchgroup=tecoEscape end=/\$/ contains=@tecoFound
syn match tecoCommand /F[SN]/ nextgroup=tecoPattern
syn match tecoPattern /\%(\^\$\|\_[^$]\)*\$/ contained contains=@tecoFound,tecoEscape nextgroup=tecoReplacement
syn match tecoReplacement /\%(\^\$\|\_[^$]\)*\$/ contained contains=tecoDollar,tecoEscape
syn match tecoCommand /\^U/ nextgroup=tecoStored
syn match tecoStored /[A-Z0-9]/ contained nextgroup=tecoStoredText
syn match tecoStoredText /\%(\^\$\|\_[^$]\)*\$/ contained contains=tecoDollar,tecoEscape

" Typed text ends at the byte 1.
syn region tecoText matchgroup=tecoCommand start=/\^A\|\%x01/ end=/\%x01/

" Texts behind @, between two delimiters, or three.
syn region tecoText matchgroup=tecoCommand start=/@:*\%(I\|\^A\)\z(\_.\)/ end=/\z1/ contains=@tecoInText
syn region tecoTag matchgroup=tecoCommand start=/@O\z(\_.\)/ end=/\z1/ contains=@tecoInText
syn region tecoName matchgroup=tecoCommand start=/@E[RW]\z(\_.\)/ end=/\z1/ contains=@tecoInText
syn region tecoSearch matchgroup=tecoCommand start=/@:*[SN]\z(\_.\)/ end=/\z1/ contains=@tecoFound
syn match tecoCommand /@:*F[SN]/ nextgroup=tecoPair
syn match tecoPair /\(\_.\)\_.\{-}\1\_.\{-}\1/ contained contains=@tecoFound

" A macro: its text is code again, up to the delimiter.
syn region tecoMacro matchgroup=tecoMacroMark start=/@:*\^U[A-Z0-9]\z(\_.\)/ end=/\z1/ keepend contains=TOP

" Comments and tags, what a library declares, and the line that makes a file a script.
syn region tecoComment start=/!/ end=/!/
syn match tecoDeclaration /!TECO-LIB [^!]*!/
syn match tecoScript /\%^#!.*/

hi def link tecoNumber Number
hi def link tecoOperator Operator
hi def link tecoCommand Statement
hi def link tecoModifier Operator
hi def link tecoEscape Delimiter
hi def link tecoIteration Repeat
hi def link tecoConditional Conditional
hi def link tecoRegister Identifier
hi def link tecoStored Identifier
hi def link tecoDollar SpecialChar
hi def link tecoControl SpecialChar
hi def link tecoText String
hi def link tecoStoredText String
hi def link tecoName String
hi def link tecoTag Label
hi def link tecoSearch String
hi def link tecoPattern String
hi def link tecoPair String
hi def link tecoReplacement Constant
hi def link tecoMacroMark PreProc
hi def link tecoComment Comment
hi def link tecoDeclaration PreProc
hi def link tecoScript PreProc

let b:current_syntax = 'teco'
