" Programs of dpj.
if exists('b:current_syntax')
  finish
endif

syntax keyword dpjStatement return print
syntax keyword dpjConditional if else
syntax keyword dpjRepeat while
syntax keyword dpjParallel cobegin foreach foreach_parts
syntax keyword dpjNd cobegin_nd foreach_nd atomic
syntax keyword dpjStructure class extends
syntax keyword dpjRegionWord region in Root
syntax keyword dpjEffect pure reads writes
syntax keyword dpjType int boolean void
syntax keyword dpjModifier final
syntax keyword dpjOperator new
syntax keyword dpjBoolean true false
syntax keyword dpjConstant null this

syntax match dpjNumber "\<\%(0\|[1-9]\d*\)\>"
syntax match dpjWrong "\<\d\w*[A-Za-z_]\w*\>\|\<0\d\+\>"
" Behind a colon stands an element of a region path, and nothing else.
syntax match dpjRegion "\<\h\w*\%(\.\h\w*\)\?\ze\s*:"
syntax match dpjRegion ":\s*\zs\h\w*\%(\.\h\w*\)\?"
syntax match dpjIndex "#\s*\zs\h\w*"
syntax match dpjIndex ":\s*\zs\%(\[\s*\%(?\|\w\+\)\s*\]\|\*\)"

syntax match dpjEscape +\\[nt"\\]+ contained
syntax match dpjWrong +\\[^nt"\\]+ contained
syntax region dpjText start=+"+ skip=+\\.+ end=+"+ oneline contains=dpjEscape,dpjWrong

syntax match dpjComment "//.*"
syntax region dpjComment start="/\*" end="\*/"
syntax sync ccomment dpjComment

highlight default link dpjStatement Statement
highlight default link dpjConditional Conditional
highlight default link dpjRepeat Repeat
highlight default link dpjParallel Repeat
highlight default link dpjNd PreProc
highlight default link dpjStructure Structure
highlight default link dpjRegionWord StorageClass
highlight default link dpjEffect Typedef
highlight default link dpjType Type
highlight default link dpjModifier StorageClass
highlight default link dpjOperator Operator
highlight default link dpjBoolean Boolean
highlight default link dpjConstant Constant
highlight default link dpjNumber Number
highlight default link dpjRegion Identifier
highlight default link dpjIndex Special
highlight default link dpjText String
highlight default link dpjEscape SpecialChar
highlight default link dpjComment Comment
highlight default link dpjWrong Error

let b:current_syntax = 'dpj'
