" Scripts and grammars of cga_city
if exists("b:current_syntax")
  finish
endif
syn case match

" an operation, a word of values and conditions, what stands in quotes
syn keyword cgaItem T S Rx Ry Rz I Subdiv Repeat Comp
syn keyword cgaNothing NIL
syn keyword cgaWord Scope rand floor ceil and or not
syn match cgaPart "\.\s*\zs\(sx\|sy\|sz\|occ\)\>"
syn match cgaText "\"\(X\|Y\|Z\|cube\|quad\|shed\|gable\|hip\|faces\|sidefaces\|edges\|vertices\|face\|edge\|front\|right\|back\|left\|top\|bottom\|noparent\|active\|none\|part\|full\)\""

" the first word of a command, and those of a block
syn match cgaCommand "^\s*\zs\(rules\|put\|drop\|attr\|priority\|lot\|unlot\|quiet\|print\|faults\|grammar\|stats\)\>"
syn match cgaCommand "^\s*\zs\(order\|city\|dump\|undo\|redo\|asset\|dress\|undress\|model\|bill\|trace\|judge\)\>"
syn match cgaBlock "^\s*\zs\(PRIORITY\|end\|version\|order\s\+breadth\|order\s\+depth\)\>"

" numbers and signs; the number of a rule and its symbol
syn match cgaNumber "\<\d\+\(\.\d\+\)\?r\?\>"
syn match cgaSign "->\|[{}|\[\]]"
syn match cgaComment "#.*$"
syn match cgaRule "^\s*\(put\s\+\d\+\s\+\)\?\d\+\s*:\s*\h\w*" contains=cgaCommand,cgaNumber,cgaSymbol
syn match cgaSymbol ":\s*\zs\h\w*" contained

hi def link cgaItem Function
hi def link cgaNothing Constant
hi def link cgaWord Keyword
hi def link cgaPart Identifier
hi def link cgaText String
hi def link cgaCommand Statement
hi def link cgaBlock PreProc
hi def link cgaSymbol Type
hi def link cgaNumber Number
hi def link cgaSign Operator
hi def link cgaComment Comment
let b:current_syntax = "cga_city"
