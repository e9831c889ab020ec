#!/usr/bin/env bash
# Runs a real Vim with the package YouCompleteMe in a terminal of tmux against the language server, by the set-up that
# editors/vim-ycm.vim gives: opens a grammar, looks at its diagnostic, asks for a hover, goes to a definition, lists references, renames
# a name, takes the code action, starts the server anew, asks again, does so in a draft, and ends. YouCompleteMe proposes no new name in a
# rename.
# Usage: ycm.sh PROGRAM. VIM_PROGRAM names the editor (vim if left out). Status 0: all right, 1: a wrong answer, 2: it could not be
# tried. The snippet is taken as it stands, but for the path of the program. The package's own server needs the python3 that comes first
# on the PATH to be the one that it was installed for.
set -euo pipefail
. "$(dirname -- "$(realpath -- "${BASH_SOURCE[0]}")")/terminal.sh"
set_up "${VIM_PROGRAM:-vim}" "$@"
snippet vim-ycm.vim > "$folder/ycm.vim"
# (what its head says for drafts: the two lines of Python, and that of Vim)
sed -n 's/^"   \(def\|  return\) /\1 /p' "$folder/ycm.vim" > "$folder/ycm.py"
{
  printf 'syntax on\nset encoding=utf-8\n'
  sed -n 's/^"   let /let /p' "$folder/ycm.vim" | sed 's#~/.vim/#~/#'
  echo 'source ~/ycm.vim'
} > "$folder/.vimrc"
go() { keys Escape; keys ":call cursor($1, $2)" Enter; }
ask() { keys ":YcmCompleter $1" Enter; }

start "$editor" -n "$file"
shows "the file" 'greeting = hello'
shows "a diagnostic" '>>name'
go 6 27; keys ':YcmShowDetailedDiagnostic' Enter; shows "its text" 'bad character'; keys Escape
go 3 12; ask GetHover; shows "a hover" 'shortest length 2' 'example hi'; keys ':pclose' Enter
go 3 12; ask GoToDefinition; shows "a definition" '4,1'
go 5 1; ask GoToReferences
shows "references" '3 col 21' '5 col 1' '6 col 1' '6 col 22'; keys ':cclose' Enter
go 7 13; ask 'RefactorRename salutation'
sed 's/hello\([^"]\|$\)/salutation\1/g' "$folder/whole" > "$folder/renamed"
writes "a rename over the whole file" "$folder/renamed" ':w' Enter
go 3 13; ask FixIt; shows "the code action" 'Insert shortest example'; keys 1 Enter
sed 's/^salutation/; example hi\n&/' "$folder/renamed" > "$folder/with_example"
writes "the text with the example" "$folder/with_example" ':w' Enter
old=$(server); ask RestartServer; is_new "$old"
go 3 13; ask GetHover; shows "a hover after it" 'shortest length 2' 'example hi'
draft; keys ":e ~/draft-d.md" Enter; shows "the draft" 'A draft of'
go 4 5; keys ':YcmShowDetailedDiagnostic' Enter; shows "a diagnostic there" 'undefined rule nope'; keys Escape
go 6 1; ask GetHover; shows "a hover there" 'shortest length 2' 'example hi'; keys ':pclose' Enter
go 5 8; ask 'RefactorRename id-left'
writes "a rename there" "$folder/renamed_draft" ':w' Enter
finish ':qa!' Enter
