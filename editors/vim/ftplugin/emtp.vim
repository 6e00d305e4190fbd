" Cases of emtp: the field under the cursor stands in the status line, a key sets the ruler of the card above it, and the fields
" of a card have colours in turn.
if exists('b:did_ftplugin')
  finish
endif
let b:did_ftplugin = 1
let b:undo_ftplugin = 'call emtp#Leave()'

setlocal expandtab textwidth=0 colorcolumn=81 virtualedit=all laststatus=2 commentstring=C\ %s
setlocal statusline=%f\ %m\ %{emtp#Field()}%=column\ %v,\ line\ %l
nnoremap <buffer> <silent> <LocalLeader>r :call emtp#Ruler()<CR>

augroup emtp
  autocmd! * <buffer>
  autocmd BufWinEnter,CursorMoved,CursorMovedI,TextChanged,TextChangedI,WinEnter <buffer> call emtp#Colour()
  autocmd BufWinLeave <buffer> call emtp#Clear()
augroup END

highlight default link EmtpField0 Identifier
highlight default link EmtpField1 Number
highlight default link EmtpField2 Type
highlight default link EmtpField3 String
highlight default link EmtpComment Comment
highlight default link EmtpHead Statement
