" `szl check` as a compiler: `:make` puts the program's first refusal into the quickfix list. As its line names no file, the file is
" named first.
if exists("current_compiler")
  finish
endif
let current_compiler = "szl"
CompilerSet makeprg=(echo\ [%:S];\ szl\ check\ %:S)
CompilerSet errorformat=%-P[%f],program:\ %m\ at\ %l:%c,record\ %m\ at\ %l:%c
