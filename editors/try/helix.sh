#!/usr/bin/env bash
# Runs a real Helix in a terminal of tmux against the language server, by the set-up that editors/helix-languages.toml gives: opens a
# grammar, looks at its diagnostic, asks for a hover, goes to a definition, renames a name, takes the code action, lists references and
# the outline, starts the server anew, asks again, does so in a draft, and ends. What Helix shows is read from the terminal, what it writes from the file.
# Usage: helix.sh PROGRAM. HX names the editor (hx if left out). Status 0: all right, 1: a wrong answer, 2: it could not be tried.
# The snippet is taken as it stands, but for the path of the program. The keys are those of Helix 25. Escape is sent by itself: with a key
# close behind it a terminal has another key.
set -euo pipefail
. "$(dirname -- "$(realpath -- "${BASH_SOURCE[0]}")")/terminal.sh"
set_up "${HX:-hx}" "$@"
mkdir -p "$XDG_CONFIG_HOME/helix" "$XDG_CACHE_HOME/helix"
snippet helix-languages.toml > "$XDG_CONFIG_HOME/helix/languages.toml"
# Goes to the line and the character of it, from 1.
go() {
  keys Escape; keys "$1" G g h
  if [ "$2" -gt 1 ]; then keys "$(($2 - 1))" l; fi
}

start "$editor" "$file"
shows "the file" 'greeting = hello'
go 6 27; shows "a diagnostic" 'bad character'
go 3 12; keys Space k; shows "a hover" 'shortest length 2' 'example hi'
go 3 12; keys g d; shows "a definition" '4:1'
go 7 12; keys Space r; keys C-u; keys -l 'salutation'; keys Enter
sed 's/hello\([^"]\|$\)/salutation\1/g' "$folder/whole" > "$folder/renamed"
keys Escape; writes "a rename over the whole file" "$folder/renamed" ':w' Enter
go 4 1; keys Space a; shows "the code action" 'Insert shortest example'; keys Enter
sed 's/^salutation/; example hi\n&/' "$folder/renamed" > "$folder/with_example"
keys Escape; writes "the text with the example" "$folder/with_example" ':w' Enter
go 8 1; keys m i W; keys Space r; shows "the name that a rename proposes of a name that is selected" 'id-right'; keys Escape
go 5 1; keys g r; shows "references" '4/4'; keys Escape
go 1 1; keys Space s; shows "the outline" 'greeting' 'salutation' 'NAME' 'id-right'; keys Escape
# (a server that is started anew is a complaint of its own)
if log=$(grep -h -E 'helix_lsp[^ ]* \[(ERROR|WARN)\]' "$XDG_CACHE_HOME/helix/helix.log" 2>/dev/null); then is "the log" "$log" ""; fi
keys Escape; keys ':lsp-restart' Enter; sleep 1
go 5 1; keys Space k; shows "a hover after a restart" 'example hi'
keys Escape; draft; keys ':o ~/draft-d.md' Enter
go 4 5; shows "a diagnostic in a draft" 'undefined rule nope'
go 6 1; keys Space k; shows "a hover there" 'shortest length 2' 'example hi'
go 5 5; keys Space r; keys C-u; keys -l id-left; keys Enter
keys Escape; writes "a rename there" "$folder/renamed_draft" ':w' Enter
keys Escape; finish ':qa!' Enter
