#!/usr/bin/env bash
# Runs a real Vim with the package ALE in a terminal of tmux over drafts, by the set-up that editors/vim-ale-drafts.vim gives: opens one in
# Markdown, looks at what ALE has found in it, behind characters of one to four bytes too, mends a name, opens one in RFCXML, one without a
# grammar and a file in Markdown that is no draft, and ends. Another Vim, whose encoding isn't UTF-8, must mark nothing.
# Usage: ale-drafts.sh PROGRAM, where the program is abnf_findings. VIM_PROGRAM names the editor (vim if left out). Status 0: all right,
# 1: a wrong mark, 2: it could not be tried. The snippet is taken as it stands, but for the path of the program.
set -euo pipefail
. "$(dirname -- "$(realpath -- "${BASH_SOURCE[0]}")")/terminal.sh"
set_up "${VIM_PROGRAM:-vim}" "$@"
snippet vim-ale-drafts.vim > "$folder/drafts.vim"
# (no other checker of ALE's is to say something of these files)
linters="{'markdown': ['abnf_findings'], 'xml': ['abnf_findings']}"
printf '%s\n' 'filetype on' 'source ~/drafts.vim' "let g:ale_linters = $linters" > "$folder/.vimrc"
drafts
cp -- "$file" "$folder/other.md"
# Of each place that ALE has found the line, its first and last column, in bytes, and its kind
marks() { # WHAT WANTED: after a while, since ALE waits
  keys Escape; sleep 1.5
  keys ":echo 'marks' map(copy(ale#engine#GetLoclist(bufnr())), '[v:val.lnum, v:val.col, v:val.end_col, v:val.type]')" Enter
  shows "$1" "marks $2"; keys Enter
}

start "$editor" -n "$file"
shows "the file" '# A draft'
marks "the marks, one of them behind other characters" "[[4, 20, 23, 'E'], [5, 1, 1, 'W'], [6, 11, 14, 'E']]"
keys ':6' Enter; keys '$'; keys i; keys x; marks "a name that is typed" "[[4, 20, 23, 'E'], [5, 1, 1, 'W'], [6, 11, 15, 'E']]"
keys ':6' Enter; keys A; keys C-w; keys '"x"'; marks "once it is mended" "[[4, 20, 23, 'E'], [5, 1, 1, 'W']]"
keys ':w' Enter; sleep 1
is "the file as it was typed" "$(sed -n 6p "$file")" 'c = "x" / "x"'
keys ":e ~/draft-b.xml" Enter; marks "a draft in RFCXML" "[[2, 11, 14, 'E']]"
keys ":e ~/draft-c.md" Enter; marks "a draft without a grammar" '[]'
keys ":e ~/other.md" Enter; marks "a file that is no draft" '[]'
keys ':qa!' Enter; sleep 1
start env LC_ALL=C "$editor" -n "$file"
marks "another encoding" '[]'
finish ':qa!' Enter
