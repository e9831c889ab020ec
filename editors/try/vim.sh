#!/usr/bin/env bash
# Runs a real Vim with no package in a terminal of tmux against the language server, by the set-up that editors/vim-plain.vim gives: opens
# a grammar, looks at its diagnostic, asks for a hover, goes to a definition, lists references and the outline, renames a name, looks at
# the new name that is proposed for one with a hyphen, takes the code action, starts the server anew, asks again, does so in a draft, and
# ends. Another Vim, whose encoding isn't UTF-8, must start no server, since columns would be others there, and say so.
# Usage: vim.sh PROGRAM. VIM_PROGRAM names the editor (vim if left out). Status 0: all right, 1: a wrong answer, 2: it could not be
# tried. The snippet is taken as it stands, but for the path of the program.
set -euo pipefail
. "$(dirname -- "$(realpath -- "${BASH_SOURCE[0]}")")/terminal.sh"
set_up "${VIM_PROGRAM:-vim}" "$@"
snippet vim-plain.vim > "$folder/plain.vim"
echo 'source ~/plain.vim' > "$folder/.vimrc"
go() { keys Escape; keys ":call cursor($1, $2)" Enter; }

start "$editor" -n "$file"
shows "the file" 'greeting = hello'
shows "a diagnostic" 'error: bad character'
go 3 12; keys K; shows "a hover" 'shortest length 2' 'example hi'; keys l
shows "no hover behind it" '3,13'
go 3 12; keys g d; shows "a definition" '4,1'
go 4 13; keys g d; shows "no definition of a text" 'no place'
go 5 1; keys g r r; shows "references" 'a.abnf|3 col 21' 'a.abnf|5 col 1' 'a.abnf|6 col 1' 'a.abnf|6 col 22'; keys ':lclose' Enter
go 5 1; keys g O; shows "the outline" 'a.abnf|8 col 1' '| use'; keys ':lclose' Enter
go 7 13; keys g r n; keys C-u; keys -l salutation; keys Enter
sed 's/hello\([^"]\|$\)/salutation\1/g' "$folder/whole" > "$folder/renamed"
writes "a rename over the whole file" "$folder/renamed" ':w' Enter
go 8 15; keys g r n; shows "the whole name is proposed" 'New name: id-right'; keys C-c
go 3 13; keys g r a
sed 's/^salutation/; example hi\n&/' "$folder/renamed" > "$folder/with_example"
writes "the text with the example" "$folder/with_example" ':w' Enter
old=$(server); keys ':AbnfRestart' Enter; is_new "$old"
go 3 13; keys K; shows "a hover after it" 'shortest length 2' 'example hi'
draft; keys ":e ~/draft-d.md" Enter; shows "a diagnostic in a draft" 'error: undefined rule nope'
go 6 1; keys K; shows "a hover there" 'shortest length 2' 'example hi'; keys l
go 1 14; keys g d; shows "no definition in prose" 'no place'
go 5 8; keys g r n; shows "the whole name is proposed there" 'New name: id-right'; keys C-u; keys -l id-left; keys Enter
writes "a rename there" "$folder/renamed_draft" ':w' Enter
keys ':e ~/notes.md' Enter; keys i; keys -l 'a = nope'; keys Escape; keys ":echo 'keys' '['.maparg('K').']'" Enter
shows "a file that is no draft keeps its keys" 'keys []'
keys ':qa!' Enter; sleep 1
start env LC_ALL=C "$editor" -n "$file"
keys ':messages' Enter; shows "another encoding is refused" 'abnf_ls needs "set encoding=utf-8" in the vimrc'
is "and no server runs" "$(server)" none
keys Enter
finish ':qa!' Enter
