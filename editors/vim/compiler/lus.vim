" Runs lus_explain on the current file: `:compiler lus`, then `:make` and `:cnext`.
if exists("current_compiler")
  finish
endif
let current_compiler = "lus"

CompilerSet makeprg=lus_explain\ %:S
CompilerSet errorformat=%f:%l:%c:\ %trror\ E%n:\ %m,%f:%l:%c:\ %tarning\ %*[a-z_]:\ %m,%-G%.%#
