" Vim syntax file
" Language: inputs of the program kit (docs/language.md)
" To use it, copy or link ftdetect/ and syntax/ into ~/.vim, or add editors/vim to 'runtimepath'.

if exists('b:current_syntax')
  finish
endif

syntax case match
" a word of an input has / . - : in it too, so that a name like from.here has no keyword in it
syntax iskeyword @,48-57,_,-,.,:,/

" ---- words
syntax match kitBad /\\./ contained
syntax match kitEscape /\\["\\]\|\\x0[1-9a-f]\|\\x1[0-9a-f]\|\\x7f/ contained
syntax region kitText start=/"/ skip=/\\./ end=/"/ oneline contains=kitBad,kitEscape contained
syntax region kitCode start=/'/ end=/'/ oneline contained
syntax match kitCode /\<0x\x\{8}\>/ contained
syntax match kitNumber /\%(^\|[ \t=,:\[#-]\)\@1<=-\?\d\+\%([]} \t,]\|$\)\@=/ contained
syntax match kitKind /\<\%(BOOL\|BYTE\|SHRT\|LONG\|LLNG\|UBYT\|USHT\|ULNG\|ULLG\|CSTR\|MSGG\|MSNG\|RAWT\)\%(:\|\>\)\@=/ contained
syntax keyword kitTruth true false contained
syntax match kitCopied /=\@1<=[$@][A-Za-z0-9_.:\/-]\+/ contained
syntax match kitCopied /\%(^\|[ \t]\)\@1<=[$@][A-Za-z0-9_.:\/-]\+/ contained
syntax match kitPath "\%([ \t]\)\@1<=/[A-Za-z0-9_.:/-]\+" contained
syntax match kitSignature "\<application/[A-Za-z0-9_.:/-]\+" contained
syntax cluster kitWords contains=kitText,kitCode,kitNumber,kitKind,kitTruth,kitCopied,kitPath,kitSignature

" ---- lines: the first word says what a line is, and which further words have a meaning of their own
syntax match kitFirst /^[ \t]*\%(kit\|script\)\>/
" a block of sessions: these three stand alone in their lines
syntax match kitBlock /^[ \t]*\%(together\|session\|end\)[ \t\r]*$/
syntax match kitHead /^[ \t]*\%(app\|looper\|handler\)\>/ nextgroup=kitHeadRest
syntax match kitHeadRest /.*/ contained contains=@kitWords,kitHeadKey
syntax keyword kitHeadKey capacity single multiple exclusive contained

syntax match kitPart /^[ \t]*\%(hook\|prefer\|common\|next\|suite\|filter\|property\|element\|on\)\>/ nextgroup=kitPartRest
syntax match kitPartRest /.*/ contained contains=@kitWords,kitPartKey
syntax keyword kitPartKey quit refuse what from local remote by dropped programmed skip pass to as commands forms usage name contained

syntax match kitAction /^[ \t]*\%(reply\|ask\|set\|add\|drop\|quit\)\>/ nextgroup=kitActionRest
syntax match kitActionRest /.*/ contained contains=@kitWords,kitActionKey
syntax keyword kitActionKey self looper handler app back into contained

" a post is an action or a statement
syntax match kitStatement /^[ \t]*\%(launch\|post\|lock\)\>/ nextgroup=kitStatementRest
syntax match kitStatementRest /.*/ contained contains=@kitWords,kitStatementKey
syntax keyword kitStatementKey args looper token dropped wait add remove next prefer none self handler app back contained

syntax match kitStatement /^[ \t]*hey\>/ nextgroup=kitHeyRest
syntax match kitHeyRest /.*/ contained contains=@kitWords,kitVerb,kitHeyKey
syntax keyword kitVerb get set count create delete do getsuites quit contained
syntax keyword kitHeyKey of to with and contained

syntax match kitComment /^[ \t]*#.*$/ contains=kitTodo
syntax keyword kitTodo TODO FIXME contained

highlight default link kitComment Comment
highlight default link kitTodo Todo
highlight default link kitText String
highlight default link kitEscape SpecialChar
highlight default link kitBad Error
highlight default link kitCode Character
highlight default link kitNumber Number
highlight default link kitKind Type
highlight default link kitTruth Boolean
highlight default link kitCopied Identifier
highlight default link kitPath Constant
highlight default link kitSignature Constant
highlight default link kitFirst PreProc
highlight default link kitBlock Repeat
highlight default link kitHead Structure
highlight default link kitHeadKey StorageClass
highlight default link kitPart Keyword
highlight default link kitPartKey Label
highlight default link kitAction Function
highlight default link kitActionKey Label
highlight default link kitStatement Statement
highlight default link kitStatementKey Label
highlight default link kitVerb Operator
highlight default link kitHeyKey Label

let b:current_syntax = 'kit'
