#!/usr/bin/env bash
# Runs a real Neovim (0.7 or later) headless against the language server, by the set-up that editors/neovim.lua gives, and from 0.11 on
# by that of editors/neovim-0.11.lua too: opens a grammar, asks for its outline, a definition and a hover, looks at its diagnostics, edits,
# asks again, reloads, goes through the references of a name, renames it and back, takes the code action, asks for the semantic tokens,
# opens a CRLF file, one with characters of one to four bytes before names and a draft of each kind, and ends. It does so with what this Neovim offers of
# itself, and then with each of the three encodings of positions offered alone. Usage: neovim.sh PROGRAM. NVIM names the editor (nvim if
# left out). Status 0: all right, 1: a wrong answer, 2: it could not be tried. A snippet is taken as it stands, but for the path of the
# program.
set -euo pipefail
[ $# -eq 1 ] || { echo "usage: neovim.sh PROGRAM" >&2; exit 2; }
program=$(realpath -- "$1")
[ -x "$program" ] || { echo "neovim.sh: no program at $program" >&2; exit 2; }
nvim=${NVIM:-nvim}
command -v "$nvim" >/dev/null || { echo "neovim.sh: no $nvim" >&2; exit 2; }
editors=$(dirname -- "$(realpath -- "${BASH_SOURCE[0]}")")/..
folder=$(mktemp -d "${TMPDIR:-/tmp}/try neovim ü.XXXXXX")
trap 'rm -rf -- "$folder"' EXIT
export ABNF_LS_PROGRAM=$program TRY_FOLDER=$folder
export XDG_CONFIG_HOME=$folder/config XDG_DATA_HOME=$folder/data XDG_STATE_HOME=$folder/state XDG_CACHE_HOME=$folder/cache
mkdir -p "$XDG_CONFIG_HOME/nvim"

cat > "$folder/init.lua" <<'LUA'
local encoding = vim.env.TRY_ENCODING
if encoding ~= "" then
  for _, name in ipairs({ "start", "start_client" }) do
    local plain = vim.lsp[name]
    if plain then
      vim.lsp[name] = function(config, ...)
        config.capabilities = config.capabilities or vim.lsp.protocol.make_client_capabilities()
        config.capabilities.general = { positionEncodings = { encoding } }
        config.offset_encoding = encoding -- an older one doesn't read what is agreed
        return plain(config, ...)
      end
    end
  end
end
LUA
snippets=(neovim.lua)
if "$nvim" --headless -u NONE -c 'lua vim.cmd(vim.lsp.config and "qall!" or "cquit 1")' 2>"$folder/stderr"; then snippets+=(neovim-0.11.lua); fi
printf '; a gr\303\244mmar \360\237\230\200\n\ngreeting = hello SP name ; \360\237\230\200\nhello    = "hi" / "hello"\nNAME     = 1*ALPHA\nname    =/ "\360\237\230\200"/hello/name\n' > "$folder/a.abnf"
sed 's/$/\r/' "$folder/a.abnf" > "$folder/dos.abnf"
printf 'a = <\303\251\342\202\254\360\237\230\200> / b / nope ; \360\237\230\200 \303\251\nb = "x"\n' > "$folder/wide.abnf"
printf '%s\n' '# Of id-right' '' '~~~ abnf' 'a = <é😀> nope' 'b = id-right' 'id-right = "hi"' '~~~' > "$folder/draft.md"
printf '%s\n' '<rfc><artwork type="abnf">' 'a = &lt;b&gt; nope' 'id-right = "hi"' '</artwork></rfc>' > "$folder/draft.xml"
printf '%s\n' '# No grammar' 'a = nope' > "$folder/other.md"

cat > "$folder/try.lua" <<'LUA'
local failed = 0
local function is(what, got, want)
  local ok = got == want
  if not ok then failed = failed + 1 end
  io.stdout:write(("%s %s%s\n"):format(ok and "ok  " or "FAIL", what, ok and "" or "\n     got  " .. got .. "\n     want " .. want))
end
local function clients() return (vim.lsp.get_clients or vim.lsp.get_active_clients)() end
local function client() return select(2, next(clients())) end
-- what positions count, and the units of a text
local function encoding() return client().offset_encoding end
local function units(text)
  if encoding() == "utf-8" then return #text end
  return vim.fn.strchars(text) + (encoding() == "utf-16" and select(2, text:gsub("[\240-\244]", "")) or 0)
end
local function ready()
  return vim.wait(5000, function()
    for _, client in pairs(clients()) do
      if client.initialized and vim.lsp.buf_is_attached(0, client.id) then return true end
    end
  end, 10)
end
local function ask(method, params)
  for _, reply in pairs(vim.lsp.buf_request_sync(0, method, params, 4000) or {}) do
    return reply.result or error(vim.inspect(reply.error or reply.err))
  end
  error("no reply to " .. method)
end
local function outline()
  local names = {}
  for _, symbol in ipairs(ask("textDocument/documentSymbol", { textDocument = vim.lsp.util.make_text_document_params() })) do
    names[#names + 1] = symbol.name .. "@" .. symbol.selectionRange.start.line
  end
  return table.concat(names, " ")
end
-- the places that define the name at the first place of a word in a line
local function definition(row, word)
  local at = vim.fn.getline(row):find(word, 1, true)
  vim.api.nvim_win_set_cursor(0, { row, at - 1 })
  local places = {}
  for _, place in ipairs(ask("textDocument/definition", vim.lsp.util.make_position_params(0, encoding()))) do
    places[#places + 1] = place.range.start.line .. ":" .. place.range.start.character .. "-" .. place.range["end"].character
  end
  return table.concat(places, " ")
end
-- what is shown of a word in a line
local function hover(row, word)
  local at = vim.fn.getline(row):find(word, 1, true)
  vim.api.nvim_win_set_cursor(0, { row, at - 1 })
  return ask("textDocument/hover", vim.lsp.util.make_position_params(0, encoding())).contents.value
end
local function text() return table.concat(vim.api.nvim_buf_get_lines(0, 0, -1, false), "\n") end
local function go(row, word) vim.api.nvim_win_set_cursor(0, { row, vim.fn.getline(row):find(word, 1, true) - 1 }) end
-- where the editor lists the places of a name: the line and the column of each, in bytes from 1
local function references(row, word, context)
  go(row, word)
  vim.fn.setqflist({}, "r")
  if context then vim.lsp.buf.references(context) else vim.cmd("normal grr") end
  vim.wait(3000, function() return #vim.fn.getqflist() > 0 end, 10)
  local places = {}
  for _, it in ipairs(vim.fn.getqflist()) do
    places[#places + 1] = it.lnum .. ":" .. it.col
  end
  vim.cmd("silent! cclose")
  return table.concat(places, " ")
end
-- the text once a name is renamed, or as it is after three seconds
local function renamed(row, word, new)
  go(row, word)
  local before = text()
  vim.lsp.buf.rename(new)
  vim.wait(3000, function() return text() ~= before end, 10)
  return text()
end
local function proposed(row, word)
  go(row, word)
  local name, input = "nothing", vim.ui.input
  vim.ui.input = function(options) name = options.default end
  vim.cmd("normal grn")
  vim.wait(3000, function() return name ~= "nothing" end, 10)
  vim.ui.input = input
  return name
end
local function refused(row, word, new)
  go(row, word)
  local params = vim.lsp.util.make_position_params(0, encoding())
  params.newName = new
  local ok, why = pcall(ask, "textDocument/rename", params)
  return ok and "granted" or tostring(why):match('message = "([^"]*)"')
end
-- the text once the only code action at a name is taken; its title
local function acted(row, word)
  go(row, word)
  local title, before, select = "no code action", text(), vim.ui.select
  vim.ui.select = function(items, options, choose)
    title = options.format_item(items[1]) .. (#items == 1 and "" or " and others")
    choose(items[1], 1)
  end
  vim.cmd("normal gra")
  vim.wait(3000, function() return text() ~= before end, 10)
  vim.ui.select = select
  return text(), title
end
local function tokens()
  return table.concat(ask("textDocument/semanticTokens/full", { textDocument = vim.lsp.util.make_text_document_params() }).data, " ")
end
local function diagnostics()
  local found = {}
  for _, it in ipairs(vim.diagnostic.get(0)) do
    found[#found + 1] = ("%d:%d-%d %d %s %s"):format(it.lnum, it.col, it.end_col, it.severity, it.code or it.user_data.lsp.code, it.message)
  end
  return table.concat(found, ", ")
end
local ok, err = pcall(function()
  is("file type", vim.bo.filetype, "abnf")
  is("attached", tostring(ready()), "true")
  is("a hyphen belongs to a word", vim.fn.matchstr("id-right = a", [[\k*]]), "id-right")
  if vim.fn.has("nvim-0.9") == 1 then
    for mod, group in pairs({ definition = "Function", defaultLibrary = "Identifier" }) do
      is("colour of " .. mod, tostring(vim.api.nvim_get_hl(0, { name = "@lsp.typemod.type." .. mod .. ".abnf" }).link), group)
    end
  end
  is("what positions count", client().server_capabilities.positionEncoding, vim.env.TRY_ENCODING ~= "" and vim.env.TRY_ENCODING or encoding())
  is("outline", outline(), "greeting@2 hello@3 NAME@4 name@5")
  is("definition", definition(3, "hello"), "3:0-5")
  is("definition in two places", definition(3, "name"), "4:0-4 5:0-4")
  is("definition at the end of a name behind an emoji", definition(6, "/name"), "3:0-5")
  is("diagnostics", diagnostics(), "5:11-12 1 syntax bad character")
  is("hover", hover(4, "hello"), "shortest length 2\nexample hi")
  vim.api.nvim_win_set_cursor(0, { 3, 11 })
  vim.cmd("normal gd")
  vim.wait(3000, function() return vim.fn.line(".") == 4 end, 10)
  is("gd", vim.fn.line(".") .. ":" .. vim.fn.col("."), "4:1")
  vim.cmd("normal gO")
  vim.wait(3000, function() return vim.bo.buftype == "quickfix" end, 10)
  is("gO", tostring(math.max(#vim.fn.getqflist(), #vim.fn.getloclist(0))), "4")
  vim.cmd("silent! cclose | silent! lclose")
  vim.api.nvim_buf_set_lines(0, 0, 0, false, { 'first = "😀" / hello ; 漢', "" })
  is("outline after an insertion", outline(), "first@0 greeting@4 hello@5 NAME@6 name@7")
  is("definition after it", definition(1, "hello"), "5:0-5")
  vim.cmd("normal! 5Gdd")
  is("outline after dd", outline(), "first@0 hello@4 NAME@5 name@6")
  vim.cmd("silent! undo") vim.cmd("silent! undo")
  is("outline after two undos", outline(), "greeting@2 hello@3 NAME@4 name@5")
  vim.cmd("%yank | $put")
  is("outline after a paste", outline(), "greeting@2 hello@3 NAME@4 name@5 greeting@8 hello@9 NAME@10 name@11")
  vim.cmd("silent! undo")
  vim.api.nvim_buf_set_lines(0, -1, -1, false, { "broken = (hello" })
  vim.wait(3000, function() return #vim.diagnostic.get(0) == 2 end, 10)
  is("one fault more while it stands", diagnostics(), "5:11-12 1 syntax bad character, 6:9-10 1 syntax bracket not closed")
  vim.cmd("silent! undo")
  vim.wait(3000, function() return #vim.diagnostic.get(0) == 1 end, 10)
  is("and once it is mended", diagnostics(), "5:11-12 1 syntax bad character")
  for i = 1, 200 do vim.api.nvim_buf_set_text(0, 2, 0, 2, 0, i % 2 == 1 and { "x" .. i .. " = %x41", "" } or { "é😀" }) if i % 2 == 0 then vim.api.nvim_buf_set_text(0, 2, 0, 2, #"é😀", { "" }) end end
  is("symbols after 300 quick edits", tostring(select(2, outline():gsub("@", ""))), "104")
  vim.cmd("edit!")
  is("attached after a reload", tostring(ready()), "true")
  is("servers after a reload", tostring(vim.tbl_count(clients())), "1")
  is("outline after a reload", outline(), "greeting@2 hello@3 NAME@4 name@5")
  local whole = text()
  is("references", references(3, "hello"), "3:12 4:1 6:19")
  is("references without the definition", references(6, "hello", { includeDeclaration = false }), "3:12 6:19")
  is("semantic tokens", tokens(), table.concat({
    ("0 0 %d 4 0 2 0 8 0 1 0 9 1 3 0 0 2 5 0 0 0 6 2 0 2 0 3 4 0 0 0 5 %d 4 0"):format(units("; a grämmar 😀"), units("; 😀")),
    "1 0 5 0 1 0 9 1 3 0 0 2 4 1 0 0 5 1 3 0 0 2 7 1 0",
    "1 0 4 0 1 0 9 1 3 0 0 2 2 3 0 0 2 5 0 2",
    ("1 0 4 0 1 0 8 2 3 0 0 %d 1 3 0 0 1 5 0 0 0 5 1 3 0 0 1 4 0 0"):format(units('=/ "😀"')),
  }, " "))
  is("a name in use", refused(4, "hello", "Greeting"), "name in use")
  is("no name", refused(4, "hello", "2x"), "not a rule name")
  is("a core rule", refused(3, "SP", "space"), "nothing to rename")
  local new = whole:gsub("= hello", "= salutation"):gsub("\nhello", "\nsalutation"):gsub("/hello", "/salutation")
  is("a rename over the whole file", renamed(6, "hello", "salutation"), new)
  is("outline after it", outline(), "greeting@2 salutation@3 NAME@4 name@5")
  is("hover after it", hover(3, "salutation"), "shortest length 2\nexample hi")
  is("and back", renamed(3, "salutation", "hello"), whole)
  local with_comment, title = acted(3, "hello")
  is("code action", title, "Insert shortest example")
  is("the text with the example", with_comment, (whole:gsub("\nhello", "\n; example hi\nhello")))
  is("outline after it", outline(), "greeting@2 hello@4 NAME@5 name@6")
  vim.cmd("edit! " .. vim.fn.fnameescape(vim.env.TRY_FOLDER .. "/dos.abnf"))
  is("attached to a CRLF file", tostring(ready()), "true")
  is("servers for both files", tostring(vim.tbl_count(clients())), "1")
  is("its format", vim.bo.fileformat, "dos")
  is("outline with CRLF", outline(), "greeting@2 hello@3 NAME@4 name@5")
  vim.cmd("normal! 6GOnew = hello")
  is("outline with CRLF after an edit", outline(), "greeting@2 hello@3 NAME@4 new@5 name@6")
  is("definition with CRLF", definition(6, "hello"), "3:0-5")
  local new = text():gsub("= hello", "= hi"):gsub("\nhello", "\nhi"):gsub("/hello", "/hi")
  is("a rename with CRLF", renamed(3, "hello", "hi"), new)
  is("references with CRLF", references(4, "hi"), "3:12 4:1 6:7 7:19")
  vim.cmd("edit! " .. vim.fn.fnameescape(vim.env.TRY_FOLDER .. "/wide.abnf"))
  is("attached to a file with wide lines", tostring(ready()), "true")
  vim.wait(3000, function() return #vim.diagnostic.get(0) == 1 end, 10)
  is("a diagnostic behind wide characters", diagnostics(), "0:22-26 1 undefined undefined rule nope")
  is("a definition from there", definition(1, "b"), "1:0-1")
  is("hover there", hover(1, "b"), "shortest length 1\nexample x")
  is("hover on a name that nothing defines", hover(1, "nope"), "undefined")
  local wide = text():gsub(" b ", " bee "):gsub("\nb", "\nbee")
  is("a rename there", renamed(1, "b", "bee"), wide)
  is("references there", references(2, "bee"), "1:19 2:1")
  vim.cmd("edit! " .. vim.fn.fnameescape(vim.env.TRY_FOLDER .. "/draft.md"))
  is("attached to a draft", tostring(ready()), "true")
  vim.wait(3000, function() return #vim.diagnostic.get(0) == 1 end, 10)
  is("a diagnostic in a draft", diagnostics(), "3:13-17 1 undefined undefined rule nope")
  is("hover in a draft", hover(6, "id-right"), "shortest length 2\nexample hi")
  is("outline of a draft", outline(), "a@3 b@4 id-right@5")
  is("references in a draft", references(5, "id-right"), "5:5 6:1")
  is("the name that a rename proposes", proposed(5, "right"), "id-right")
  is("a word of prose", vim.fn.matchstr("id-right", [[\k*]]), vim.fn.has("nvim-0.8") == 1 and "id" or "id-right")
  local draft = text()
  is("a rename in a draft", renamed(5, "right", "id-left"), (draft:gsub("= id%-right", "= id-left"):gsub("\nid%-right", "\nid-left")))
  vim.cmd("edit! " .. vim.fn.fnameescape(vim.env.TRY_FOLDER .. "/draft.xml"))
  is("attached to a draft in RFCXML", tostring(ready()), "true")
  vim.wait(3000, function() return #vim.diagnostic.get(0) == 1 end, 10)
  is("a diagnostic there", diagnostics(), "1:14-18 1 undefined undefined rule nope")
  is("hover there", hover(3, "id-right"), "shortest length 2\nexample hi")
  vim.cmd("edit! " .. vim.fn.fnameescape(vim.env.TRY_FOLDER .. "/other.md"))
  is("attached to another file", tostring(ready()), "true")
  is("outline of another file", outline(), "")
  is("its diagnostics", diagnostics(), "")
  is("its keys", vim.fn.maparg("gd", "n"), "")
  is("servers for all files", tostring(vim.tbl_count(clients())), "1")
end)
if not ok then failed = failed + 1 io.stdout:write("FAIL " .. tostring(err) .. "\n") end
-- a crash of the server, or a complaint of it, stands in the editor's log
local log = io.open(require("vim.lsp.log").get_filename())
for line in log and log:lines() or function() end do
  if line:find("^%[ERROR%]") or line:find("^%[WARN%]") then failed = failed + 1 io.stdout:write("FAIL " .. line .. "\n") end
end
vim.cmd(failed == 0 and "qall!" or "cquit 1")
LUA
for snippet in "${snippets[@]}"; do
  sed 's#"/path/to/abnf_ls/[^"]*"#vim.env.ABNF_LS_PROGRAM#' "$editors/$snippet" | cat "$folder/init.lua" - > "$XDG_CONFIG_HOME/nvim/init.lua"
  grep -q ABNF_LS_PROGRAM "$XDG_CONFIG_HOME/nvim/init.lua" || { echo "neovim.sh: no program named in $snippet" >&2; exit 2; }
  for encoding in '' utf-8 utf-16 utf-32; do
    status=0
    echo "$snippet, offered: ${encoding:-what it does of itself}"
    TRY_ENCODING=$encoding timeout 18 "$nvim" -n --headless "$folder/a.abnf" \
      -c "luafile $(printf '%s' "$folder/try.lua" | sed 's/ /\\ /g')" 2>"$folder/stderr" || status=$?
    if [ "$status" != 0 ]; then
      cat "$folder/stderr" >&2
      echo "neovim.sh: failed with status $status by $snippet ($("$nvim" --version | head -1))" >&2
      exit 1
    fi
  done
done
echo "neovim.sh: passed ($("$nvim" --version | head -1))"
