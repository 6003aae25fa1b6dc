" Vim syntax file for the systems and scripts of rinv.
if exists("b:current_syntax")
  finish
endif

syntax match rinvComment "#.*$"
syntax match rinvWord "^\s*\(field\|group\|space\|ideal\|unit\|product\|inverse\|action\|section\)\>"
syntax match rinvWord "^\s*budget\s\+\(pairs\|steps\)\>"
syntax match rinvQuery "^\s*\(def\|laws\|generators\|invariant\|rewrite\)\>"
syntax match rinvNumber "\<\d\+\>"
syntax match rinvSymbol "\<y\d\+\>"
syntax match rinvOperator "[-+*^/=]"
" Only tabs and printable ASCII are allowed.
syntax match rinvForeign "[^\t -~]"

highlight default link rinvComment Comment
highlight default link rinvWord Keyword
highlight default link rinvQuery Statement
highlight default link rinvNumber Number
highlight default link rinvSymbol Identifier
highlight default link rinvOperator Operator
highlight default link rinvForeign Error

let b:current_syntax = "rinv"
