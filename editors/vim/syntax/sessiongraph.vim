" Graph texts, parts and schedules of sessiongraph.
if exists('b:current_syntax')
  finish
endif
syntax case match
syntax match sgName /\<[A-Za-z]\w*\>/
syntax match sgNumber /\<\d\+\>/
syntax match sgHex /\<\x\{64}\>/
syntax match sgHex /\(\<hex \+\)\@<=\x\+\>/
syntax match sgFrame /\<f\d\+\>/
syntax match sgPunctuation /[:;,{}]/
syntax match sgArrow /->/
syntax keyword sgKeyword writes reads by as
syntax keyword sgType int text
syntax match sgKeyword /\(^\|;\)\@<=\s*\(graph\|role\|var\|node\|edge\|use\)\>/
syntax match sgKeyword /^\(honest\|key\|session\)\>/
syntax match sgStep /^\(start\|act\|abandon\|deliver\|craft\)\>/
syntax match sgKeyword / \@<=\(from\|to\|join\|nonce\|cast\|know\|item\|open\|tag\|seal\|key\|copy\|zero\|flip\|cut\|hex\|v2\)\( \|$\)\@=/
syntax match sgComment /#.*$/
syntax match sgCommitted /\<[A-Za-z]\w*=\("\(\\x\x\x\|[^"\\]\)*"\|-\?\d\+\)\(#\d\+\)\?/ contains=sgVariable,sgString
syntax match sgVariable /\<[A-Za-z]\w*=\@=/ contained
syntax match sgString /"\(\\x\x\x\|[^"\\]\)*"/ contained
highlight default link sgName Identifier
highlight default link sgNumber Number
highlight default link sgHex Number
highlight default link sgFrame Special
highlight default link sgPunctuation Delimiter
highlight default link sgArrow Operator
highlight default link sgKeyword Keyword
highlight default link sgType Type
highlight default link sgStep Statement
highlight default link sgComment Comment
highlight default link sgCommitted Constant
highlight default link sgVariable Identifier
highlight default link sgString String
let b:current_syntax = 'sessiongraph'
