" A file of a service has no ending: it is told by how it begins, white space and comments passed over.
function! s:begins_group() abort
  for line in getline(1, 200)
    let text = substitute(line, '\s*\%(//.*\)\?$', '', '')
    if text !=# ''
      return text =~# '^\s*{\s*:\%(Application\|Scene\)\>' || text =~# '^\s*{$' && join(getline(1, 200)) =~# '{\s*:\%(Application\|Scene\)\>'
    endif
  endfor
  return 0
endfunction

autocmd BufRead,BufNewFile * if &filetype ==# '' && s:begins_group() | setfiletype redplay | endif
