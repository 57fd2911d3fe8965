" Finds the places in what btrun says of concurrent Boolean programs: `:compiler btrun`, and `:make` checks the program.
if exists("current_compiler")
  finish
endif
let current_compiler = "btrun"

CompilerSet makeprg=btrun\ check\ --explain\ %:S
" A failure and a wait have a place in a file only if they name it.
CompilerSet errorformat=an\ assertion\ of\ %.%#\ at\ %f:%l:%c:\ %m,
      \%-Gan\ assertion\ of\ %.%#,
      \thread\ %\\d%\\+\ waits\ at\ %f:%l:%c:\ %m,
      \%-Gthread\ %\\d%\\+\ waits\ at\ %.%#,
      \%f:%l:%c:\ %m,
      \%f:%l:\ %m,
      \%-G%.%#
