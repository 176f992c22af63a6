" Programs of szl: comments, and :make by `szl check`.
if exists("b:did_ftplugin")
  finish
endif
let b:did_ftplugin = 1
setlocal comments=:# commentstring=#\ %s
compiler szl
let b:undo_ftplugin = "setlocal comments< commentstring< makeprg< errorformat<"
