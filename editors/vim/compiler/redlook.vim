" What `redlook check` finds of a service: `:compiler redlook`, and then `:make FOLDER`.
if exists('g:current_compiler')
  finish
endif
let g:current_compiler = 'redlook'

CompilerSet makeprg=redlook\ check\ --format\ short\ $*

" What is not read or is refused is an error, what never happens a warning; a note is one.
CompilerSet errorformat=%E%f:%l:%c:\ unread\ %m,%E%f:%l:%c:\ refused\ %m,%E%f:%l:%c:\ fault\ %m
CompilerSet errorformat+=%W%f:%l:%c:\ never\ %m,%N%f:%l:%c:\ note\ %m
