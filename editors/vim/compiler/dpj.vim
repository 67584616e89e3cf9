" :compiler dpj, then :make checks the file at hand. `dpj` has to be on the PATH, or g:dpj_program says where it is.
if exists('current_compiler')
  finish
endif
let current_compiler = 'dpj'
if exists(':CompilerSet') != 2
  command -nargs=* CompilerSet setlocal <args>
endif
let s:program = escape(get(g:, 'dpj_program', 'dpj'), ' \|"')
execute 'CompilerSet makeprg=' . s:program . '\ check\ --editor\ %:S'
CompilerSet errorformat=%f:%l:%c:\ refused:\ %m,%f:%l:%c:\ trap:\ %m,%-Gaccepted,%-Gdpj:\ %.%#
