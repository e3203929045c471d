" Theories of ddl: a comment goes from # to the end of its line.
if exists('b:did_ftplugin')
  finish
endif
let b:did_ftplugin = 1
setlocal commentstring=#\ %s comments=:# iskeyword=@,48-57,_
let b:undo_ftplugin = 'setlocal commentstring< comments< iskeyword<'
