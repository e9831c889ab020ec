" Vim with the package ALE; a line in vimrc that reads this file is enough:
"   source ~/.local/share/abnf_ls/editors/vim-ale.vim
" gd goes from a name to its definition, K shows what its rule generates at the shortest, :ALEFindReferences lists its uses,
" :ALERename renames it, :ALECodeAction inserts the shortest example. Faults are marked ALE's delay after Insert mode ends; with
" g:ale_lint_on_text_changed = "always" also as you type. :ALEStopAllLSPs and :edit start the server anew. ALE takes the positions of a
" line for bytes: behind characters outside ASCII its marks stand too far to the left, and :ALERename spoils the line.
" The server runs in all files of Markdown and XML too, beside others, and says nothing where it finds no block of ABNF. There the keys are
" for drafts: files named draft-*, and those that have the word abnf when they are opened.
silent! packadd! ale
autocmd BufRead,BufNewFile *.abnf setfiletype abnf
" iskeyword: a rename proposes the word under the cursor, the whole name; in drafts it is set for that alone
autocmd FileType abnf setlocal commentstring=;%s comments=:; iskeyword+=-
function! s:Keys() abort
  if &filetype ==# 'abnf' || expand('%:t') =~# '^draft-' || search('\cabnf', 'nw')
    nnoremap <buffer> gd <Cmd>ALEGoToDefinition<CR>
    nnoremap <buffer> K <Cmd>ALEHover<CR>
    command! -buffer -bar ALERename call s:Rename()
  endif
endfunction
function! s:Rename() abort
  let l:words = &l:iskeyword
  setlocal iskeyword+=-
  call ale#rename#Execute()
  let &l:iskeyword = l:words
endfunction
autocmd FileType abnf,markdown,xml call s:Keys()
for s:type in ['abnf', 'markdown', 'xml']
  call ale#linter#Define(s:type, {
  \   'name': 'abnf_ls',
  \   'lsp': 'stdio',
  \   'executable': "/path/to/abnf_ls/out/abnf_ls",
  \   'command': '%e',
  \   'initialization_options': {'drafts': v:true},
  \   'project_root': {buffer -> expand('#' . buffer . ':p:h')},
  \})
endfor
