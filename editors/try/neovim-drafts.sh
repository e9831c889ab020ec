#!/usr/bin/env bash
# Runs a real Neovim (0.7 or later) in a terminal of tmux over drafts, by the set-up that editors/neovim-drafts.lua gives: opens one in
# Markdown, looks at its diagnostics, one of them behind characters of one to four bytes, mends a name in Insert mode, opens one in RFCXML
# and one without a grammar, and ends.
# Usage: neovim-drafts.sh PROGRAM, where the program is abnf_findings. NVIM names the editor (nvim if left out). Status 0: all right, 1: a
# wrong mark, 2: it could not be tried. The snippet is taken as it stands, but for the path of the program.
set -euo pipefail
. "$(dirname -- "$(realpath -- "${BASH_SOURCE[0]}")")/terminal.sh"
set_up "${NVIM:-nvim}" "$@"
mkdir -p "$folder/config/nvim"
{
  snippet neovim-drafts.lua
  # Of each diagnostic in a line its first and last column, in bytes, and its severity
  cat <<'LUA'
vim.api.nvim_create_user_command("Marks", function(args)
  local found = {}
  for _, it in ipairs(vim.diagnostic.get(0, { lnum = tonumber(args.args) - 1 })) do
    found[#found + 1] = ("%d %d %d %s"):format(it.col, it.end_col, it.severity, it.message)
  end
  print("marks [" .. table.concat(found, ", ") .. "]")
end, { nargs = 1 })
LUA
} > "$folder/config/nvim/init.lua"
drafts
marks() { keys Escape; keys ":Marks $2" Enter; shows "$1" "marks $3"; } # WHAT LINE WANTED

start "$editor" -n "$file"
shows "the file" '# A draft'
marks "a mark behind other characters" 4 '[19 23 1 undefined rule nope]'
marks "a warning" 5 '[0 1 2 rule b generates nothing]'
marks "none in prose" 1 '[]'
keys ':6' Enter; keys '$'; keys i; keys x; marks "a name that is typed" 6 '[10 15 1 undefined rule nopxe]'
keys ':6' Enter; keys A; keys C-w; keys '"x"'; marks "once it is mended" 6 '[]'
keys ':w' Enter
is "the file as it was typed" "$(sed -n 6p "$file")" 'c = "x" / "x"'
keys ":e ~/draft-b.xml" Enter; marks "a draft in RFCXML" 2 '[10 14 1 undefined rule nope]'
keys ":e ~/draft-c.md" Enter; marks "a draft without a grammar" 1 '[]'
finish ':qa!' Enter
