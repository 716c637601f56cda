" Vim syntax file for CLU as this compiler reads it.

if exists('b:current_syntax')
  finish
endif

" Words are the same in either case, and names have ASCII letters alone.
syntax case ignore
syntax iskeyword 48-57,65-90,95,97-122

syntax keyword cluConditional if then elseif else tagcase tag
syntax keyword cluRepeat for in while do break continue
syntax keyword cluException except when others signal resignal exit
syntax keyword cluStatement begin end return yield
syntax keyword cluHeading cluster proc iter is returns yields signals where has own type
syntax keyword cluType null bool int real char string any rep cvt
syntax keyword cluType array sequence record struct oneof variant proctype itertype
syntax keyword cluBoolean true false
syntax keyword cluConstant nil
syntax keyword cluOperator cand cor
syntax keyword cluConversion up down force

" Of items that match at one place the last one wins, and a keyword before all of them. A name is taken as a whole, so
" that no number begins within it.
syntax match cluName /\h\w*/
syntax match cluRoutineName /\h\w*\ze\s*=\s*\%(proc\|iter\)\>/
syntax match cluClusterName /\h\w*\ze\s*=\s*cluster\>/

" The name after `end` has nothing after it that would make it the first of a statement.
syntax match cluEndName /\%(\<end\s\+\)\@32<=\h\w*\>\%(\s*[:,.$([]\)\@!/

syntax match cluNumber /\d\+/
syntax match cluNumber /\d\+e[-+]\=\d\+/
syntax match cluNumber /\d\+\.\d*\%(e[-+]\=\d\+\)\=/
syntax match cluNumber /\.\d\+\%(e[-+]\=\d\+\)\=/

" A literal ends in its line. A character literal has one byte or one escape.
syntax match cluBadLiteral /'/
syntax match cluBadLiteral /".*/
syntax match cluCharacter /'\%([\t -&(-[\]-~]\|\\[ntpbrv\\'"]\|\\\o\{3}\)'/ contains=cluEscape
syntax match cluString /"\%([^"\\]\|\\.\)*"/ contains=cluBadEscape,cluEscape
syntax match cluBadEscape /\\./ contained
syntax match cluEscape /\\\%([ntpbrv\\'"]\|\o\{3}\)/ contained

syntax match cluComment /%.*/ contains=cluTodo,@Spell
syntax keyword cluTodo contained TODO FIXME

highlight default link cluConditional Conditional
highlight default link cluRepeat Repeat
highlight default link cluException Exception
highlight default link cluStatement Statement
highlight default link cluHeading Keyword
highlight default link cluType Type
highlight default link cluBoolean Boolean
highlight default link cluConstant Constant
highlight default link cluOperator Operator
highlight default link cluConversion Keyword
highlight default link cluRoutineName Function
highlight default link cluClusterName Structure
highlight default link cluEndName Identifier
highlight default link cluNumber Number
highlight default link cluCharacter Character
highlight default link cluString String
highlight default link cluEscape SpecialChar
highlight default link cluBadEscape Error
highlight default link cluBadLiteral Error
highlight default link cluComment Comment
highlight default link cluTodo Todo

let b:current_syntax = 'clu'
