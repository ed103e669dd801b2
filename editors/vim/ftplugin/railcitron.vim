" Comments of sources, and :make as `bb check`.
if exists('b:did_ftplugin')
  finish
endif
let b:did_ftplugin = 1

setlocal comments=:// commentstring=//\ %s
compiler railcitron
let b:undo_ftplugin = 'setlocal comments< commentstring< makeprg< errorformat<'
