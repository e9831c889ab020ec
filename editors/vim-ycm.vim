" Vim with the package YouCompleteMe; a line in vimrc that reads this file is enough:
"   source ~/.local/share/abnf_ls/editors/vim-ycm.vim
" :YcmCompleter has GoToDefinition, GoToReferences, GetHover, RefactorRename NEW, FixIt, and RestartServer. Where the cursor rests on a
" name, what its rule generates at the shortest is shown beside it. The package needs a Vim with Python 3, and for its own server the
" python3 that it was installed for: g:ycm_server_python_interpreter names it where another comes first on the PATH.
" In drafts it needs more, since YouCompleteMe asks a server only for what a file of Python says. Write these two lines into one
"   def Settings(**it):
"     return {"ls": {"drafts": True}} if it["language"] == "abnf_ls" else {}
" and put before the line that reads this file, with the path of that one:
"   let g:ycm_global_ycm_extra_conf = expand('~/.vim/ycm.py') | let g:abnf_drafts = 1
" A .ycm_extra_conf.py in a folder or above it goes before that one, and must have them too: the server reads Markdown as a grammar else.
" Another server for Markdown or XML in g:ycm_language_server before this line stays, and this one isn't used there.
silent! packadd! youcompleteme
autocmd BufRead,BufNewFile *.abnf setfiletype abnf
autocmd FileType abnf setlocal commentstring=;%s comments=:; iskeyword+=-
" The server's colours need the groups that "syntax on" makes.
autocmd FileType abnf let b:ycm_enable_semantic_highlighting = exists('g:syntax_on')
let s:types = ['abnf'] + (get(g:, 'abnf_drafts') ? ['markdown', 'xml'] : [])
let g:ycm_language_server = get(g:, 'ycm_language_server', []) +
\   [{'name': 'abnf_ls', 'cmdline': ["/path/to/abnf_ls/out/abnf_ls"], 'filetypes': s:types}]
