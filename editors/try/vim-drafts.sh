#!/usr/bin/env bash
# Runs a real Vim with no package in a terminal of tmux over drafts, by the set-up that editors/vim-drafts.vim gives: opens one in
# Markdown, looks at what is said of it and at the marks, one of them behind characters of one to four bytes, mends a name in Insert mode,
# opens one in RFCXML and one without a grammar, and ends. Another Vim, whose encoding isn't UTF-8, must mark nothing, and say so.
# Usage: vim-drafts.sh PROGRAM, where the program is abnf_findings. VIM_PROGRAM names the editor (vim if left out). Status 0: all right,
# 1: a wrong mark, 2: it could not be tried. The snippet is taken as it stands, but for the path of the program.
set -euo pipefail
. "$(dirname -- "$(realpath -- "${BASH_SOURCE[0]}")")/terminal.sh"
set_up "${VIM_PROGRAM:-vim}" "$@"
snippet vim-drafts.vim > "$folder/drafts.vim"
echo 'source ~/drafts.vim' > "$folder/.vimrc"
drafts
# Of each mark in a line its column and its length, in bytes, and its kind
marks() { # WHAT LINE WANTED
  local all="prop_list($2)->filter({_, it -> it.type != 'abnf_draft_said'})"
  keys Escape; keys ":echo 'marks' $all->map({_, it -> [it.col, it.length, it.type[11:]]})" Enter
  shows "$1" "marks $3"
}

start "$editor" -n "$file"
shows "what is said" 'error: undefined rule nope' 'warning: rule b generates nothing'
times=2 shows "of each name" 'undefined rule nope'
marks "a mark behind other characters" 4 "[[20, 4, 'error']]"
marks "a warning" 5 "[[1, 1, 'warning']]"
marks "none in prose" 1 '[]'
keys ':6' Enter; keys '$'; keys i; keys x; marks "a name that is typed" 6 "[[11, 5, 'error']]"
keys ':6' Enter; keys A; keys C-w; keys '"x"'; marks "once it is mended" 6 '[]'
keys ':w' Enter
is "the file as it was typed" "$(sed -n 6p "$file")" 'c = "x" / "x"'
keys ":e ~/draft-b.xml" Enter; shows "a draft in RFCXML" 'error: undefined rule nope'
marks "its mark" 2 "[[11, 4, 'error']]"
keys ":e ~/draft-c.md" Enter; marks "a draft without a grammar" 1 '[]'
keys ':qa!' Enter; sleep 1
start env LC_ALL=C "$editor" -n "$file"
keys ':messages' Enter; shows "another encoding is refused" 'abnf_findings needs "set encoding=utf-8" in the vimrc'
keys Enter
finish ':qa!' Enter
