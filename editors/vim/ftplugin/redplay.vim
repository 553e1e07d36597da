" Comments, brackets and indents of the textual notation.
if exists('b:did_ftplugin')
  finish
endif
let b:did_ftplugin = 1

setlocal comments=:// commentstring=//\ %s
setlocal matchpairs+={:},(:)
setlocal expandtab shiftwidth=4 softtabstop=4
setlocal foldmethod=indent
setlocal iskeyword=@,48-57,_

let b:undo_ftplugin = 'setlocal comments< commentstring< matchpairs< expandtab< shiftwidth< softtabstop< foldmethod< iskeyword<'
