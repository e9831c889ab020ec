#!/usr/bin/env bash
# Runs a real Vim with the package ALE in a terminal of tmux against the language server, by the set-up that editors/vim-ale.vim gives:
# opens a grammar, looks at its diagnostic, asks for a hover, goes to a definition, lists references, renames a name, looks at the new
# name that is proposed for one with a hyphen, takes the code action, starts the server anew, asks again, does so in a draft, and ends.
# Usage: ale.sh PROGRAM. VIM_PROGRAM names the editor (vim if left out). Status 0: all right, 1: a wrong answer, 2: it could not be
# tried. The snippet is taken as it stands, but for the path of the program.
set -euo pipefail
. "$(dirname -- "$(realpath -- "${BASH_SOURCE[0]}")")/terminal.sh"
set_up "${VIM_PROGRAM:-vim}" "$@"
snippet vim-ale.vim > "$folder/ale.vim"
printf '%s\n' 'filetype on' 'source ~/ale.vim' "let g:ale_linters = {'markdown': ['abnf_ls']}" > "$folder/.vimrc"
go() { keys Escape; keys ":call cursor($1, $2)" Enter; }

start "$editor" -n "$file"
shows "the file" 'greeting = hello'
go 6 1; shows "a diagnostic" 'bad character'
go 3 12; keys K; shows "a hover" 'shortest length 2' 'example hi'; keys Enter
go 3 12; keys g d; shows "a definition" '4,1'
# ALE asks for the uses of a name, without its definitions.
go 5 1; keys ':ALEFindReferences' Enter; shows "references" 'a.abnf:3:21' 'a.abnf:6:22'; keys ':close' Enter
go 7 13; keys ':ALERename' Enter; keys C-u; keys -l salutation; keys Enter
sed 's/hello\([^"]\|$\)/salutation\1/g' "$folder/whole" > "$folder/renamed"
writes "a rename over the whole file" "$folder/renamed" ':w' Enter
go 8 15; keys ':ALERename' Enter; shows "the whole name is proposed" 'New name: id-right'; keys C-c
go 3 13; keys ':ALECodeAction' Enter; shows "the code action" 'Insert shortest example'; keys 1 Enter
sed 's/^salutation/; example hi\n&/' "$folder/renamed" > "$folder/with_example"
writes "the text with the example" "$folder/with_example" ':w' Enter
old=$(server); keys ':ALEStopAllLSPs' Enter; keys ':e' Enter; is_new "$old"
go 3 13; keys K; shows "a hover after it" 'shortest length 2' 'example hi'; keys Enter
draft; keys ":e ~/draft-d.md" Enter
go 4 5; shows "a diagnostic in a draft" 'undefined rule nope'
go 6 1; keys K; shows "a hover there" 'shortest length 2' 'example hi'; keys Enter
go 5 8; keys g d; shows "a definition there" '6,1'
go 5 8; keys ':ALERename' Enter; shows "the whole name is proposed there" 'New name: id-right'; keys C-u; keys -l id-left; keys Enter
writes "a rename there" "$folder/renamed_draft" ':w' Enter
finish ':qa!' Enter
