" Indents a lus program as lus_format lays it out, as far as one line shows it.
if exists("b:did_indent")
  finish
endif
let b:did_indent = 1

setlocal indentexpr=LusIndent(v:lnum)
setlocal indentkeys=o,O,!^F,0=node,0=function,0=returns,0=var,0=let,0=tel,0=type,0=const
let b:undo_indent = "setlocal indentexpr< indentkeys<"

if exists("*LusIndent")
  finish
endif

let s:at_margin = '^\s*\%(node\|function\|returns\|var\|let\|tel\|type\|const\)\>'
let s:comment = '\s*--.*$'

function LusIndent(number)
  let line = getline(a:number)
  if line =~# s:at_margin
    return 0
  endif
  let above = prevnonblank(a:number - 1)
  if above == 0
    return 0
  endif
  let text = substitute(getline(above), s:comment, "", "")
  if text =~# '^\s*\%(let\|var\|type\|const\)\s*$'
    return shiftwidth()
  elseif text =~# '^\s*tel\>'
    return 0
  elseif text =~# ';\s*$'
    " what ends a declaration or an equation: the next begins where that one began
    return s:begin_of(above)
  elseif line =~# '^\s*else\>'
    " below its `if`, or the `else` before it
    let opened = match(text, text =~# '^\s*else\>' ? '\<else\>' : '\<if\>')
    return opened >= 0 ? opened : indent(above)
  elseif line =~# '^\s*(\h\w*\s*->' && text =~# '\<merge\>'
    return indent(above) + shiftwidth()
  elseif text =~# '=\s*$'
    return indent(above) + 2 * shiftwidth()
  endif
  return indent(above)
endfunction

" The column at which the equation, the group or the item that ends on this line began.
function s:begin_of(number)
  let number = a:number
  while number > 1
    let above = prevnonblank(number - 1)
    let text = substitute(getline(above), s:comment, "", "")
    if above == 0 || text =~# '\%(^\|;\)\s*$' || text =~# '^\s*\%(let\|var\|type\|const\)\s*$'
      break
    endif
    let number = above
  endwhile
  let begun = getline(number)
  if begun =~# '^\s*\%(type\|const\)\s'
    return matchend(begun, '^\s*\%(type\|const\)\s\+')
  elseif begun =~# '^\s*var\>'
    return shiftwidth()
  endif
  return begun =~# s:at_margin ? 0 : indent(number)
endfunction
