" CEAL: comments, indents of two, and :make by ./run check
if exists('b:did_ftplugin') | finish | endif
let b:did_ftplugin = 1
setlocal commentstring=//\ %s comments=s1:/*,mb:*,ex:*/,:// shiftwidth=2 softtabstop=2 expandtab cindent
compiler ceal
let b:undo_ftplugin = 'setlocal commentstring< comments< shiftwidth< softtabstop< expandtab< cindent< makeprg< errorformat<'
