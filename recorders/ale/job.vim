" Records what ALE and its language servers send each other, as logs for lspcheck.
" Add to vimrc, after the line that puts ALE on the runtime path: source FOLDER/ale/job.vim
" (Keep the name ale/job.vim: Vim lets only a file of this name redefine ALE's functions.)
" Each server process gets a log of its own, SERVER-TIME-PID.log, and when it has ended, a file
" SERVER-TIME-PID.exit that says how. They go to the folder $LSPCHECK_LOGS, which is created if it
" does not exist (default: the folder that Vim was started in). Only their owner can read them. A
" snapshot is taken whenever ALE has sent a text.
" With LSPCHECK_ALARM=1, and lspcheck on the PATH, a message appears as soon as a rule is broken or
" the texts drift apart.

runtime autoload/ale/job.vim

" An absolute path, so that the logs stay in one folder after `:cd`.
let s:folder = fnamemodify(empty($LSPCHECK_LOGS) ? '.' : $LSPCHECK_LOGS, ':p')
" If another Vim creates the same folders at this moment, one of the two fails.
for s:attempt in range(9)
  if !isdirectory(s:folder)
    silent! call mkdir(s:folder, 'p', 0700)
  endif
endfor

" Without a folder ALE works, but is not recorded.
if !isdirectory(s:folder)
  finish
endif

let s:most = 1048576
let s:logs = {}
let s:deleted = {}
let s:checks = {}
let s:line_ends = {'unix': "\n", 'dos': "\r\n", 'mac': "\r"}
" The names that Vim has for signals, in the order of their numbers.
let s:signals = split('hup int quit ill trap abrt bus fpe kill usr1 segv usr2 pipe alrm term')

" What may come before the server in a command: `env` and its options, a shell, Python that runs a
" module, the commands and settings before that of the server.
let s:before_server = '\C\v^(' . join([
\ '\s+',
\ '(\S*/)?env(\s+-([uC]\s+\S+|\S+))*\s',
\ '(\S*/)?(ba|da|k|z)?sh\s+-\w*c\s',
\ '(\S*/)?python[0-9.]*\s+(-[WX]\s+\S+\s+|-\w+\s+)*-m\s',
\ '(cd|export|source|\.|set|umask)\s[^;&|\n]*[;&|\n]+',
\ 'exec\s|\w+\=\S*\s',
\], '|') . ')+'

" The name of the server that a command starts.
function! s:ServerName(command) abort
  let l:command = substitute(a:command, '["'']', '', 'g')
  let l:server = matchstr(substitute(l:command, s:before_server, '', ''), '^[^ \t\n;&|]*')
  let l:name = empty(l:server) ? matchstr(l:command, '^\S*') : l:server

  return substitute(fnamemodify(l:name, ':t'), '[^A-Za-z0-9._+-]', '_', 'g')
endfunction

" Whether a log was deleted, which is said once. A new file would lack the beginning of the log.
function! s:IsDeleted(log) abort
  if filereadable(a:log)
    return 0
  endif

  if !has_key(s:deleted, a:log)
    let s:deleted[a:log] = 1
    call s:Say('lspcheck: nothing more is recorded: the log was deleted: ' . a:log)
  endif

  return 1
endfunction

" Without a log, nothing is recorded.
function! s:Write(log, bytes) abort
  if empty(a:log) || s:IsDeleted(a:log)
    return
  endif

  silent! call writefile(split(a:bytes, "\n", 1), a:log, 'ab')

  for l:check in get(s:checks, a:log, [])
    if job_status(l:check) is# 'run'
      silent! call ch_sendraw(l:check, a:bytes)
    endif
  endfor
endfunction

" Shows one line. A longer one, or a second one on the same screen, would wait for a key.
function! s:Say(message) abort
  redraw
  echohl WarningMsg
  echomsg strcharpart(a:message, 0, get(v:, 'echospace', &columns - 12))
  echohl None
endfunction

" Adds lines to the buffer of a log's violations, and returns its number.
function! s:Keep(log, lines) abort
  let l:buffer = bufadd('lspcheck: ' . fnamemodify(a:log, ':t'))

  if !bufloaded(l:buffer)
    call setbufvar(l:buffer, '&buftype', 'nofile')
    call setbufvar(l:buffer, '&swapfile', 0)
    call bufload(l:buffer)
    call setbufvar(l:buffer, '&buflisted', 1)
    call setbufline(l:buffer, 1, 'lspcheck explain --all ' . a:log)
  endif

  call appendbufline(l:buffer, '$', a:lines)

  return l:buffer
endfunction

" How the lines begin that are shown: violations, and notes that say that a server may have dropped
" a document.
let s:shown = '^\(no \d\|bad log \|note \(past-end\|range-length\|refused\) \)'

" Shows each of these lines, and keeps all from the first one on.
function! s:Hear(log, state, line) abort
  let l:is_shown = a:line =~# s:shown
  let a:state.is_told = a:state.is_told || l:is_shown
  let l:buffer = a:state.is_told ? s:Keep(a:log, [a:line]) : 0

  if l:is_shown
    call s:Say('lspcheck: ' . a:line . ' (:buffer ' . l:buffer . ')')
  endif
endfunction

" Shows the first violation that concerns line ends alone. The state has the lines of the last one,
" and whether one was shown.
function! s:HearLineEnds(log, state, channel, line) abort
  let a:state.block = (a:line =~# '^no \d' ? [] : a:state.block) + [a:line]

  if a:line =~# '^so ' && match(a:state.block, '^ends ') >= 0 && !a:state.is_shown
    let a:state.is_shown = 1
    let l:buffer = s:Keep(a:log, a:state.block)
    call s:Say('lspcheck: ' . a:state.block[0] . ', line ends alone (:buffer ' . l:buffer . ')')
    call ch_close_in(a:channel)
  endif
endfunction

" `lspcheck explain --all` reads the log while it is written, and explains each violation at once.
" Where line ends are converted on the way, texts differ from the first snapshot on. So one check
" ignores line ends, and another is there only to say so once.
function! s:StartAlarm(log) abort
  if empty($LSPCHECK_ALARM) || !executable('lspcheck')
    return
  endif

  let l:state = {'is_told': 0, 'block': [], 'is_shown': 0}
  let l:command = ['lspcheck', 'explain', '--all']
  let s:checks[a:log] = [
  \   job_start(l:command + ['--ignore-line-ends', '--notes'], {
  \     'in_mode': 'raw',
  \     'out_cb': {_, line -> s:Hear(a:log, l:state, line)},
  \   }),
  \   job_start(l:command, {
  \     'in_mode': 'raw',
  \     'out_cb': {channel, line -> s:HearLineEnds(a:log, l:state, channel, line)},
  \   }),
  \]
endfunction

" Whether no log is written into the folder: whoever else could replace files there could have Vim
" write to any file of its user. In a sticky folder, such as /tmp, nobody else can.
function! s:IsRefused() abort
  let l:bad = '-type l -o ! -user 0 ! -user "$(id -u)" -o -perm -0002 ! -perm -1000'
  let l:find = 'find "$1" -prune \( ' . l:bad . ' \) 2> /dev/null'
  let l:folder = substitute(s:folder, '\(.\)/\+$', '\1', '')

  return !empty(system("sh -c '" . l:find . "' sh " . shellescape(l:folder)))
endfunction

" Creates a file that did not exist. The shell does it, since Vim itself cannot refuse to write to
" an existing file.
function! s:New(file) abort
  return system("sh -c 'umask 077; set -C; : > \"$1\"' sh " . shellescape(a:file))
endfunction

" Creates a log, with a number in its name if there is one of that name.
function! s:Create(name) abort
  let l:number = 1
  let l:log = a:name . '.log'

  if s:IsRefused()
    call s:Say('lspcheck: not recorded: a link, or others may write there: ' . s:folder)

    return ''
  endif

  while 1
    let l:problem = s:New(l:log)

    if v:shell_error && getftype(l:log) is# ''
      call s:Say('lspcheck: not recorded: ' . trim(l:problem))

      return ''
    elseif !v:shell_error
      return l:log
    endif

    let l:number += 1
    let l:log = a:name . '-' . l:number . '.log'
  endwhile
endfunction

" Writes how the server ended to a file next to its log. ALE has only a number, but Vim has the
" name of a signal.
function! s:NoteExit(log, job_id, status) abort
  if empty(a:log) || s:IsDeleted(a:log)
    return
  endif

  let l:ended = 'status ' . a:status

  for l:job in job_info()
    let l:info = job_info(l:job)

    if l:info.process == a:job_id && !empty(get(l:info, 'termsig', ''))
      let l:ended = 'signal ' . (index(s:signals, l:info.termsig) + 1)
    endif
  endfor

  let l:file = fnamemodify(a:log, ':r') . '.exit'
  let l:lines = [l:ended, 'time ' . strftime('%Y-%m-%dT%H:%M:%S%z')]
  call s:New(l:file)

  if !v:shell_error
    silent! call writefile(l:lines, l:file)
  endif

  for l:check in get(s:checks, a:log, [])
    if job_status(l:check) is# 'run'
      call ch_close_in(l:check)
    endif
  endfor
endfunction

" Records what the editor wrote ('E') or read ('S').
function! s:Record(log, side, bytes) abort
  let l:at = 0

  while l:at < strlen(a:bytes)
    let l:piece = strpart(a:bytes, l:at, s:most)
    call s:Write(a:log, a:side . ' ' . strlen(l:piece) . "\n" . l:piece . "\n")
    let l:at += strlen(l:piece)
  endwhile
endfunction

" Records the buffer as it is, if the message carried its text, at the version of the message.
function! s:Snapshot(log, message) abort
  let l:method = get(a:message, 'method', '')

  if l:method isnot# 'textDocument/didOpen' && l:method isnot# 'textDocument/didChange'
    return
  endif

  let l:document = a:message.params.textDocument
  let l:buffer = bufnr(ale#path#FromFileURI(l:document.uri))

  if l:buffer > 0
    let l:line_end = s:line_ends[getbufvar(l:buffer, '&fileformat')]
    let l:text = join(getbufline(l:buffer, 1, '$'), l:line_end)
    let l:text .= getbufvar(l:buffer, '&endofline') ? l:line_end : ''
    let l:sizes = [l:document.version, strlen(l:document.uri), strlen(l:text)]
    call s:Write(a:log, join(['T'] + l:sizes) . "\n" . l:document.uri . "\n" . l:text . "\n")
  endif
endfunction

" ALE's own functions, called by reference.
let s:Start = funcref('ale#job#Start')
let s:SendRaw = funcref('ale#job#SendRaw')

" The jobs whose output is read raw are language servers.
function! ale#job#Start(command, options) abort
  if get(a:options, 'mode', '') isnot# 'raw' || !has_key(a:options, 'out_cb')
    return s:Start(a:command, a:options)
  endif

  let l:name = s:ServerName(type(a:command) is v:t_list ? join(a:command) : a:command)
  let l:log = ''
  let l:options = copy(a:options)
  let l:Read = a:options.out_cb
  let l:Exit = get(a:options, 'exit_cb', {_, status -> 0})

  let l:options.out_cb = {job, message -> [s:Record(l:log, 'S', message), l:Read(job, message)]}
  let l:options.exit_cb = {job, status -> [s:NoteExit(l:log, job, status), l:Exit(job, status)]}

  let l:job_id = s:Start(a:command, l:options)

  " Nothing was read yet: Vim calls back only when this function is over.
  if l:job_id
    let l:time = strftime('%Y%m%dT%H%M%S')
    let l:log = s:Create(join([s:folder . '/' . l:name, l:time, l:job_id], '-'))
  endif

  if !empty(l:log)
    let s:logs[l:job_id] = l:log
    call s:StartAlarm(l:log)
    call s:Write(l:log, "lsp-session 1\n")
  endif

  return l:job_id
endfunction

function! ale#job#SendRaw(job_id, string) abort
  if !has_key(s:logs, a:job_id)
    return s:SendRaw(a:job_id, a:string)
  endif

  call s:Record(s:logs[a:job_id], 'E', a:string)
  call s:SendRaw(a:job_id, a:string)
  call s:Snapshot(s:logs[a:job_id], json_decode(matchstr(a:string, '{.*')))
endfunction
