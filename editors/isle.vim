" Highlighting of ISLE rule files, for Vim and Neovim: put it into the folder syntax of the configuration.
if exists('b:current_syntax')
  finish
endif

" A word is all but white space, parentheses, `;` and `@`.
syntax iskeyword 33-39,42-58,60-63,65-126,192-255

" A term is what begins a list, unless something below says otherwise.
syntax match isleTerm '\v\(\zs[^-0-9[:space:]();@$][^[:space:]();@]*'
syntax match isleNumber '\v<-?\d\k*>'
syntax match isleConstant '\v\$[^[:space:]();@]+'
syntax match isleWildcard '\v<_>'
syntax match isleBinder '@'
syntax keyword isleBoolean true false
syntax keyword isleFlag pure multi partial rec infallible extern nodebug
syntax match isleVariant '\v\(\zs[^[:space:]();@$.]+\.[^[:space:]();@]+'

" The words that definitions, types, conditions and lets begin with.
syntax match isleKeyword '\v\(\zs(type|decl|rule|extractor|extern|convert)>'
syntax match isleKeyword '\v\(\zs(primitive|enum|struct)>'
syntax match isleKeyword '\v\(\zs(if-let|if|let|and)>'
syntax match isleKeyword '\v\(extern[[:space:]]+\zs(constructor|extractor|const)>'
syntax match isleSkipped '\v\(\zs(pragma|spec|model|form|instantiate|attr|state|macro|spec_macro)>'

" The name of a rule.
syntax match isleRule '\v(\(rule[[:space:]]+)@<=[^-0-9[:space:]();@$][^[:space:]();@]*'

syntax keyword isleBuiltin bool u8 u16 u32 u64 u128 usize i8 i16 i32 i64 i128 isize

syntax region isleComment start=';' end='$' contains=@Spell
syntax region isleComment start='(;' end=';)' contains=isleComment,@Spell

highlight default link isleComment Comment
highlight default link isleNumber Number
highlight default link isleConstant Constant
highlight default link isleBoolean Boolean
highlight default link isleWildcard Special
highlight default link isleBinder Operator
highlight default link isleFlag StorageClass
highlight default link isleVariant Identifier
highlight default link isleKeyword Keyword
highlight default link isleSkipped PreProc
highlight default link isleRule Label
highlight default link isleTerm Function
highlight default link isleBuiltin Type

let b:current_syntax = 'isle'
