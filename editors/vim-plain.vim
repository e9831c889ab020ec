vim9script
# Vim 9.0 or later by itself, with no package; a line in vimrc that reads this file is enough:
#   source ~/.local/share/abnf_ls/editors/vim-plain.vim
# Faults are marked as you type, and said behind their line. gd goes from a name to its definition, grr lists its places, grn renames it, K
# shows what its rule generates at the shortest, gra inserts that as a comment, gO lists the rules. :AbnfRestart starts the server anew.
# All that is there in drafts too: files that end in .md, .mkd, .markdown or .xml, and are named draft-* or have the word abnf when they are
# opened.
const program = "/path/to/abnf_ls/out/abnf_ls"

var job: job
# Of each open document the number of its buffer, by its uri.
var documents: dict<number> = {}

def Uri(file: string): string
  const bytes = range(len(file))->mapnew((_, at) => strpart(file, at, 1))
  return 'file://' .. bytes->mapnew((_, it) => it =~ '[A-Za-z0-9_.~/-]' ? it : printf('%%%02X', char2nr(it)))->join('')
enddef

def Runs(): bool
  return job_status(job) == 'run'
enddef

def Notify(method: string, params: dict<any>)
  if Runs()
    ch_sendexpr(job, {method: method, params: params})
  endif
enddef

# The result of a request, or null where there is none; what an error says is shown.
def Asked(method: string, params: dict<any>): any
  if !Runs()
    echo 'abnf_ls does not run; :AbnfRestart starts it'
    return null
  endif
  const reply = ch_evalexpr(job, {method: method, params: params}, {timeout: 10000})
  if reply->has_key('error')
    redraw
    echo reply.error.message
  endif
  return reply->get('result', null)
enddef

def Start()
  job = job_start([program], {in_mode: 'lsp', out_mode: 'lsp', err_mode: 'nl', out_cb: Told, err_cb: Warned})
  const capabilities = {general: {positionEncodings: ['utf-8']}}
  Asked('initialize', {processId: getpid(), rootUri: null, capabilities: capabilities, initializationOptions: {drafts: true}})
  Notify('initialized', {})
enddef

def Stop()
  if Runs()
    Asked('shutdown', {})
    Notify('exit', {})
  endif
enddef

def Warned(_: channel, line: string)
  echomsg line
enddef

def Text(buffer: number): string
  return buffer->getbufline(1, '$')->join("\n") .. "\n"
enddef

def Open(buffer: number)
  const uri = Uri(bufname(buffer)->fnamemodify(':p'))
  const version = buffer->getbufvar('changedtick')
  Close(buffer)
  setbufvar(buffer, 'abnf_uri', uri)
  setbufvar(buffer, 'abnf_version', version)
  documents[uri] = buffer
  const language = buffer->getbufvar('abnf_language')
  Notify('textDocument/didOpen', {textDocument: {uri: uri, languageId: language, version: version, text: Text(buffer)}})
enddef

# Sends the text as it is now.
def Change()
  if b:abnf_version != b:changedtick
    b:abnf_version = b:changedtick
    Notify('textDocument/didChange', {textDocument: {uri: b:abnf_uri, version: b:changedtick}, contentChanges: [{text: Text(bufnr())}]})
  endif
enddef

def Close(buffer: number)
  const uri = buffer->getbufvar('abnf_uri', '')
  if documents->has_key(uri)
    remove(documents, uri)
    Notify('textDocument/didClose', {textDocument: {uri: uri}})
  endif
enddef

# What the server tells by itself are findings. Those of a text that has changed since are passed over: others will come.
def Told(_: channel, message: dict<any>)
  const params = message->get('params', {})
  const buffer = documents->get(params->get('uri', ''), -1)
  if buffer != -1 && buffer->getbufvar('abnf_version') == params->get('version', 0)
    prop_remove({bufnr: buffer, types: ['abnf_error', 'abnf_warning', 'abnf_said'], all: true}, 1, getbufinfo(buffer)[0].linecount)
    for it in params.diagnostics
      Mark(buffer, it.range, it.severity == 1 ? 'error' : 'warning', it.message)
    endfor
  endif
enddef

def Mark(buffer: number, range: dict<any>, kind: string, message: string)
  const line = range.start.line + 1
  const bytes = buffer->getbufline(line)->mapnew((_, it) => len(it))
  if !empty(bytes) && range.end.character <= bytes[0]
    const length = range.end.character - range.start.character
    prop_add(line, range.start.character + 1, {bufnr: buffer, type: $'abnf_{kind}', length: length})
    prop_add(line, 0, {bufnr: buffer, type: 'abnf_said', text: $'  {kind}: {message}', text_wrap: 'truncate'})
  endif
enddef

# The document and the place of the cursor, of which a request asks.
def Here(): dict<any>
  Change()
  return {textDocument: {uri: b:abnf_uri}, position: {line: line('.') - 1, character: col('.') - 1}}
enddef

def Hover()
  const hover = Asked('textDocument/hover', Here())
  if hover != null
    popup_atcursor(hover.contents.value->split("\n"), {border: [], padding: [0, 1, 0, 1], moved: 'any'})
  endif
enddef

# Lists places of the document, or goes to the one that there is.
def Show(ranges: list<dict<any>>, texts: list<string>)
  const places = ranges->mapnew((at, it) => ({bufnr: bufnr(), lnum: it.start.line + 1, col: it.start.character + 1, text: texts[at]}))
  if len(places) == 1
    normal! m'
    cursor(places[0].lnum, places[0].col)
  elseif empty(places)
    echo 'no place'
  else
    setloclist(0, places)
    lopen
  endif
enddef

def ShowPlaces(method: string, more: dict<any>)
  const found = Asked(method, Here()->extend(more))
  const ranges = (found ?? [])->mapnew((_, it) => it.range)
  Show(ranges, ranges->mapnew((_, it) => getline(it.start.line + 1)))
enddef

def Outline()
  const symbols = Asked('textDocument/documentSymbol', Here()) ?? []
  Show(symbols->mapnew((_, it) => it.selectionRange), symbols->mapnew((_, it) => it.name))
enddef

# Each edit is in one line. The last comes first, so that it moves no other.
def Apply(edit: any)
  for it in (edit ?? {changes: {}}).changes->get(b:abnf_uri, [])->copy()->reverse()
    const at = it.range.start
    const old = getline(at.line + 1)
    const new = (strpart(old, 0, at.character) .. it.newText .. strpart(old, it.range.end.character))->split("\n", true)
    setline(at.line + 1, new[0])
    append(at.line + 1, new[1 :])
  endfor
enddef

def Rename()
  const at = col('.')
  const name = input('New name: ', matchstr(getline('.'), $'\v%(\a[a-zA-Z0-9-]*)?%{at}c[a-zA-Z0-9-]*'))
  if name != ''
    Apply(Asked('textDocument/rename', Here()->extend({newName: name})))
  endif
enddef

def Act()
  final here = Here()
  const range = {start: here.position, end: here.position}
  const actions = Asked('textDocument/codeAction', here->extend({range: range, context: {diagnostics: []}})) ?? []
  if empty(actions)
    echo 'nothing to insert'
  else
    Apply(actions[0].edit)
  endif
enddef

def Restart()
  Stop()
  Start()
  for buffer in documents->values()
    Open(buffer)
  endfor
enddef

def Edit(language: string)
  if &encoding != 'utf-8'
    echomsg 'abnf_ls needs "set encoding=utf-8" in the vimrc'
    return
  endif
  b:abnf_language = language
  if language == 'abnf'
    setlocal commentstring=;%s comments=:; iskeyword+=-
  endif
  nnoremap <buffer> gd <ScriptCmd>ShowPlaces('textDocument/definition', {})<CR>
  nnoremap <buffer> grr <ScriptCmd>ShowPlaces('textDocument/references', {context: {includeDeclaration: true}})<CR>
  nnoremap <buffer> grn <ScriptCmd>Rename()<CR>
  nnoremap <buffer> gra <ScriptCmd>Act()<CR>
  nnoremap <buffer> gO <ScriptCmd>Outline()<CR>
  nnoremap <buffer> K <ScriptCmd>Hover()<CR>
  autocmd! abnf_ls * <buffer>
  autocmd abnf_ls TextChanged,TextChangedI,TextChangedP <buffer> Change()
  autocmd abnf_ls BufUnload <buffer> Close(expand('<abuf>')->str2nr())
  if job == null_job
    Start()
  endif
  Open(bufnr())
enddef

def EditDraft(language: string)
  if expand('%:t') =~ '^draft-' || search('\cabnf', 'nw') > 0
    Edit(language)
  endif
enddef

prop_type_add('abnf_error', {highlight: 'SpellBad'})
prop_type_add('abnf_warning', {highlight: 'SpellCap'})
prop_type_add('abnf_said', {highlight: 'WarningMsg'})
command! AbnfRestart Restart()
augroup abnf_ls
  autocmd!
  autocmd BufRead,BufNewFile *.abnf setfiletype abnf
  autocmd FileType abnf Edit('abnf')
  autocmd BufRead,BufNewFile *.md,*.mkd,*.markdown EditDraft('markdown')
  autocmd BufRead,BufNewFile *.xml EditDraft('xml')
  autocmd VimLeavePre * Stop()
augroup END
