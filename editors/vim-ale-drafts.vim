" Vim with the package ALE, in drafts; a line in vimrc that reads this file is enough:
"   source ~/.local/share/abnf_ls/editors/vim-ale-drafts.vim
" Of draft-*.md (Markdown) and draft-*.xml (RFCXML) abnf_findings looks at the text as it is in Vim. Faults of the grammar are marked ALE's
" delay after Insert mode ends; with g:ale_lint_on_text_changed = "always" also as you type. A draft without a grammar has no mark. Nothing
" is looked at where Vim's encoding isn't utf-8, since columns would be others there.
silent! packadd! ale
function! s:Program(ending, buffer) abort
  let l:is_draft = fnamemodify(bufname(a:buffer), ':t') =~# '\v^draft-.*\.' . a:ending . '$'
  return l:is_draft && &encoding ==# 'utf-8' ? "/path/to/abnf_ls/out/abnf_findings" : ''
endfunction
" Columns count characters, and those of ALE bytes. The mark is a name's, or one of a character.
function! s:Found(buffer, lines) abort
  let l:found = []
  for l:line in a:lines
    let l:it = matchlist(l:line, '\v^-:(\d+):(\d+): (\a)\a+: (.*) \[([a-z-]+)\]$')
    let l:texts = empty(l:it) || l:it[5] ==# 'no-grammar' ? [] : getbufline(a:buffer, l:it[1])
    let l:at = empty(l:texts) ? -1 : byteidxcomp(l:texts[0], l:it[2] - 1)
    if l:at >= 0
      let l:place = {'lnum': l:it[1] + 0, 'col': l:at + 1, 'end_col': l:at + max([1, len(matchstr(l:texts[0], '[A-Za-z0-9-]\+\|.', l:at))])}
      call add(l:found, extend(l:place, {'type': toupper(l:it[3]), 'text': l:it[4], 'code': l:it[5]}))
    endif
  endfor
  return l:found
endfunction
for [s:type, s:ending] in [['markdown', 'md'], ['xml', 'xml']]
  call ale#linter#Define(s:type, {
  \   'name': 'abnf_findings',
  \   'executable': function('s:Program', [s:ending]),
  \   'command': '%e --format ' . s:type . ' -',
  \   'callback': function('s:Found'),
  \})
endfor
