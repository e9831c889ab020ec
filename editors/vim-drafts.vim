vim9script
# Vim 9.0 or later by itself, in drafts; a line in vimrc that reads this file is enough:
#   source ~/.local/share/abnf_ls/editors/vim-drafts.vim
# Of draft-*.md (Markdown) and draft-*.xml (RFCXML) abnf_findings looks at the text as it is in Vim, at each change. Faults of the grammar
# are marked as you type, and said behind their line. A draft without a grammar has no mark.
const program = "/path/to/abnf_ls/out/abnf_findings"
const form = '\v^-:(\d+):(\d+): (error|warning): (.*) \[([a-z-]+)\]$'

def Look()
  prop_remove({types: ['abnf_draft_error', 'abnf_draft_warning', 'abnf_draft_said'], all: true}, 1, line('$'))
  for said in systemlist($'{shellescape(program)} --format {b:abnf_format} -', bufnr())
    const found = matchlist(said, form)
    if !empty(found) && found[5] != 'no-grammar'
      Mark(str2nr(found[1]), str2nr(found[2]), found[3], found[4])
    endif
  endfor
enddef

# Columns count characters, and those of Vim bytes. The mark is a name's, or one of a character.
def Mark(line: number, column: number, kind: string, message: string)
  const texts = getbufline(bufnr(), line)
  const at = empty(texts) ? -1 : byteidxcomp(texts[0], column - 1)
  if at >= 0
    prop_add(line, at + 1, {type: $'abnf_draft_{kind}', length: len(matchstr(texts[0], '[A-Za-z0-9-]\+\|.', at))})
    prop_add(line, 0, {type: 'abnf_draft_said', text: $'  {kind}: {message}', text_wrap: 'truncate'})
  endif
enddef

def Edit(format: string)
  if &encoding != 'utf-8'
    echomsg 'abnf_findings needs "set encoding=utf-8" in the vimrc'
  elseif !executable(program)
    echomsg $'no program {program}'
  else
    b:abnf_format = format
    autocmd! abnf_drafts * <buffer>
    autocmd abnf_drafts TextChanged,TextChangedI,TextChangedP <buffer> Look()
    Look()
  endif
enddef

prop_type_add('abnf_draft_error', {highlight: 'SpellBad'})
prop_type_add('abnf_draft_warning', {highlight: 'SpellCap'})
prop_type_add('abnf_draft_said', {highlight: 'WarningMsg'})
augroup abnf_drafts
  autocmd!
  autocmd BufRead,BufNewFile draft-*.md Edit('markdown')
  autocmd BufRead,BufNewFile draft-*.xml Edit('xml')
augroup END
