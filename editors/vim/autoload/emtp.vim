" What the lines of a case are, as `emtp show --fields` tells it, and what that says of the column under the cursor.
" A number has its range, its unit and what it is read as from there; what a name or a type may be is that of
" autoload/emtp/columns.vim. g:emtp_show names another emtp_show.

let s:top = fnamemodify(resolve(expand('<sfile>:p')), ':h:h:h:h')
let s:colours = 4
let s:turns = 8 " how often it is asked at most: behind each refused card once more

" The program that tells it.
function! s:Program() abort
  if !exists('s:program')
    let s:program = get(g:, 'emtp_show', empty($EMTP_SHOW) ? get(systemlist(shellescape(s:top . '/program') . ' emtp_show'), 0, '') : $EMTP_SHOW)
  endif
  return s:program
endfunction

" What is told of a field that holds a number: its name, its range with the unit, what it is read as. Else nothing.
function! s:Number(parts) abort
  let [unit, span, value] = [get(a:parts, 4, ''), get(a:parts, 5, ''), get(a:parts, 6, '')]
  if span ==# ''
    return ''
  endif
  let unit = unit ==# '' || unit ==# 'whole' ? '' : ' ' . unit
  let span = substitute(span, '^[^,]*', '\0' . unit, '')
  return a:parts[2] . ', ' . span . (value ==# '' ? '' : ', read as ' . value)
endfunction

" Adds what is told of these lines, and returns the number of a line behind which nothing is told, or 0.
function! s:Add(told, lines) abort
  let [at, refused, file] = [0, 0, tempname()]
  call writefile(a:lines, file)
  let answer = systemlist(shellescape(s:Program()) . ' --fields ' . shellescape(file))
  call delete(file)
  for text in answer
    let parts = split(text, "\t", 1)
    if parts[0] ==# 'refused'
      let refused = str2nr(parts[1])
    elseif text =~# '^\d\+\t' && len(parts) == 3
      let at = str2nr(parts[0])
      let new = !has_key(a:told, at)
      if new
        let a:told[at] = {'kind': parts[1], 'legend': parts[2], 'fields': []}
      endif
    elseif parts[0] ==# '' && len(parts) > 3 && new
      let [first, last] = split(parts[1], '-')
      call add(a:told[at].fields, [str2nr(first), str2nr(last), parts[2], s:Number(parts)])
    endif
  endfor
  return at > refused ? 0 : refused
endfunction

" What is told of each line by its number: its kind, the names over its columns, and its fields. A comment has no entry.
function! s:Told() abort
  if get(b:, 'emtp_tick', -1) == b:changedtick
    return b:emtp_told
  endif
  let [lines, told] = [getline(1, '$'), {}]
  for turn in range(s:turns)
    let refused = s:Add(told, lines)
    if !refused || refused >= len(lines)
      break
    endif
    let lines[refused - 1] = 'C' " a comment in its place: the lines behind are read as if the card weren't there
  endfor
  let [b:emtp_told, b:emtp_tick] = [told, b:changedtick]
  return told
endfunction

" What stands in the column under the cursor.
function! emtp#Field() abort
  let here = get(s:Told(), line('.'), {})
  if empty(get(here, 'fields', []))
    return ''
  endif
  let column = virtcol('.')
  for [first, last, name, number] in here.fields
    if first <= column && column <= last
      let what = number !=# '' ? number : get(get(g:emtp#columns#fields, here.legend, {}), first . '-' . last, name)
      return here.kind . ', ' . first . (first < last ? '-' . last : '') . ': ' . what
    endif
  endfor
  return here.kind . ': not read'
endfunction

" Sets the names of the fields above the line of the cursor, as a comment.
function! emtp#Ruler() abort
  let legend = get(get(s:Told(), line('.'), {}), 'legend', '')
  if legend ==# ''
    echo 'This line has no fields.'
  else
    call append(line('.') - 1, 'C ' . strpart(legend, 2))
  endif
endfunction

function! emtp#Clear() abort
  for number in get(w:, 'emtp_matches', [])
    silent! call matchdelete(number)
  endfor
  let w:emtp_matches = []
  unlet! w:emtp_seen
endfunction

" Colours the lines that the window shows.
function! emtp#Colour() abort
  let seen = [bufnr('%'), b:changedtick, line('w0'), line('w$')]
  if get(w:, 'emtp_seen', []) == seen
    return
  endif
  call emtp#Clear()
  let w:emtp_seen = seen
  let told = s:Told()
  let end = max(map(keys(told), 'str2nr(v:val)'))
  for number in range(line('w0'), min([line('w$'), end]))
    let fields = has_key(told, number) ? told[number].fields : []
    if empty(fields)
      call add(w:emtp_matches, matchaddpos(has_key(told, number) ? 'EmtpHead' : 'EmtpComment', [number]))
    endif
    let turn = 0
    for [first, last, name] in fields
      call add(w:emtp_matches, matchaddpos('EmtpField' . turn, [[number, first, last - first + 1]]))
      let turn = (turn + 1) % s:colours
    endfor
  endfor
endfunction

function! emtp#Leave() abort
  call emtp#Clear()
  autocmd! emtp * <buffer>
  silent! nunmap <buffer> <LocalLeader>r
  setlocal expandtab< textwidth< colorcolumn< virtualedit< statusline< commentstring<
endfunction
