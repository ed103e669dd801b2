" Has :make check the input: `bb check` reads the file, and what it says of refusals and warnings becomes the list of
" errors, each with its line of the file. `let g:railcitron_program = '/path/to/bb'` names a program off the PATH.
if exists('current_compiler')
  finish
endif
let current_compiler = 'railcitron'

if exists(':CompilerSet') != 2
  command -nargs=* CompilerSet setlocal <args>
endif

" The first line of what the program says tells the file, as no message has it. `refused ..` and costs are left out.
let s:program = escape(get(g:, 'railcitron_program', 'bb'), ' \|"')
execute 'CompilerSet makeprg={\ echo\ of\ %:S;\ ' . s:program . '\ check\ <\ %:S\ >/dev/null;\ }'

" A message begins with its line and column of the file, as far as it has them, and its number or name. Names and other
" notes come behind the message.
CompilerSet errorformat=
      \%-Pof\ %f,
      \%Einput:%l:%c:\ error[%*[^]]]:\ %m,
      \%Einput:%l:\ error[%*[^]]]:\ %m,
      \%Einput:\ error[%*[^]]]:\ %m,
      \%Winput:%l:%c:\ warning[%*[^]]]:\ %m,
      \%Winput:\ warning[%*[^]]]:\ %m,
      \%-Z\ \ \|\ %\\s%#^,
      \%+C\ \ \|\ %.%#,
      \%-G%.%#
