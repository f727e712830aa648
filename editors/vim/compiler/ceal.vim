" CEAL: the fault of a source text, with its hints, as ./run check tells it
if exists('current_compiler') | finish | endif
let current_compiler = 'ceal'
" let g:ceal_run name ./run where Vim is not started at the top of the repository
execute 'CompilerSet makeprg=' . escape(get(g:, 'ceal_run', './run'), ' \|"') . '\ check\ %:S'
CompilerSet errorformat=%Erun:\ %f:%l:%c:\ %m,%Crun:\ \ \ %m,%-G%.%#
