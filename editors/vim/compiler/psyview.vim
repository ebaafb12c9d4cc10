" Vim: checks a program with psyview, and jumps to what it refuses. `:compiler psyview`, then `:make % 1000`, 1000 being the date up to which the demand is judged.
if exists("current_compiler")
  finish
endif
let current_compiler = "psyview"
CompilerSet makeprg=psyview\ check\ $*
CompilerSet errorformat=%f:%l:%c:\ %m,%-G%.%#
