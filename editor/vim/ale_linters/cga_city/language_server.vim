" Vim with the plugin ALE: the language server of a repository above the script, or g:cga_language_server
function! CgaLanguageServer(buffer) abort
  let l:found = findfile('tools/language_server', fnameescape(expand('#' . a:buffer . ':p:h')) . ';')
  return get(g:, 'cga_language_server', l:found ==# '' ? 'language_server' : fnamemodify(l:found, ':p'))
endfunction

call ale#linter#Define('cga_city', {
\   'name': 'language_server',
\   'lsp': 'stdio',
\   'executable': function('CgaLanguageServer'),
\   'command': '%e',
\   'language': 'cga_city',
\   'project_root': {buffer -> expand('#' . buffer . ':p:h')},
\})
