" :make lists what tools/lint finds, and :cnext goes from one place to the next
if exists("current_compiler")
  finish
endif
let current_compiler = "cga_lint"

" g:cga_lint, else the linter of a repository above the script, else one on the PATH
let s:found = findfile("tools/lint", fnameescape(expand("%:p:h")) . ";")
let s:lint = get(g:, "cga_lint", s:found == "" ? "lint" : shellescape(fnamemodify(s:found, ":p")))
execute "CompilerSet makeprg=" . escape(s:lint . " %:S", " \\|\"")
" a note has the type n; lines of the script and the sum are left out
CompilerSet errorformat=%f:%l:%c:\ %tote:\ %m,%f:%l:%c:\ %m,%-G%.%#
