" Vim syntax of labrun's scripts, made from editors/words.txt by scripts/make_editors.
if exists("b:current_syntax")
  finish
endif
syntax case match
syntax match labNumber /\v<[0-9]+>/ contained
syntax match labName /\v<[a-z][a-z0-9-]*>/ contained
syntax match labVerb /\v<(set|add|read)>/ contained
syntax match labOption /\v<(patience)>/ contained
syntax match labLine /\v^\s*(lab|job|session|end|steps)>/ contained
syntax match labStep /\v^\s*(thirst|hunger|sit|leave|drink|reach|act|quit|retire|withdraw|look|askfork|givefork|soil|askbottles|givebottles|glance)>/ contained
syntax match labHeader /\v^\s*lab\s+[12]\s*$/ contains=labLine,labNumber
syntax match labJob /\v^\s*job\s+[a-z][a-z0-9-]*\s*$/ contains=labLine,labName
syntax match labSession /\v^\s*session(\s+(patience)\s+[0-9]+)?\s*$/ contains=labLine,labOption,labNumber
syntax match labEnd /\v^\s*end\s*$/ contains=labLine
syntax match labCommand /\v^\s*[a-z][a-z0-9-]*\s+((set|add)\s+[0-9]+|read)\s*$/ contains=labVerb,labNumber
syntax region labSteps start=/\v^\s*steps\s*$/ end=/\v%$/ contains=labLine,labOneStep,labComment
syntax match labOneStep /\v^\s*(thirst|hunger|sit|leave|drink|reach|act|quit|retire|withdraw|look|askfork|givefork|soil|askbottles|givebottles|glance)(\s+[a-z][a-z0-9-]*)+\s*$/ contained contains=labStep
syntax match labComment /\v^\s*#.*$/
highlight default link labComment Comment
highlight default link labLine Keyword
highlight default link labOption Keyword
highlight default link labVerb Function
highlight default link labStep Statement
highlight default link labNumber Number
highlight default link labName Identifier
let b:current_syntax = "lab"
