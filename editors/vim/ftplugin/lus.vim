" Settings of a buffer with a lus program. `gq` formats it, `:make` finds its errors, and Neovim starts the language server.
if exists("b:did_ftplugin")
  finish
endif
let b:did_ftplugin = 1

compiler lus
setlocal comments=s1:/*,mb:*,ex:*/,:--
setlocal commentstring=--\ %s
setlocal expandtab shiftwidth=2 softtabstop=2
let &l:formatprg = "lus_format -"
let b:undo_ftplugin = "setlocal comments< commentstring< expandtab< shiftwidth< softtabstop< formatprg< makeprg< errorformat<"

if has("nvim") && executable("lus_lsp")
  lua require("lus").start()
endif
