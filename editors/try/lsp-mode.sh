#!/usr/bin/env bash
# Runs a real Emacs with the package lsp-mode in a terminal of tmux against the language server, by the set-up that
# editors/emacs-lsp-mode.el gives: opens a grammar, looks at its diagnostic, asks for a hover, goes to a definition, lists references and
# the outline, renames a name, looks at the new name that is proposed for one with a hyphen, takes the code action, starts the server
# anew, asks again, does so in a draft, for which it needs the package markdown-mode, and ends.
# Usage: lsp-mode.sh PROGRAM. EMACS names the editor (emacs if left out). Status 0: all right, 1: a wrong answer, 2: it could not be
# tried. The snippet is taken as it stands, but for the path of the program.
set -euo pipefail
. "$(dirname -- "$(realpath -- "${BASH_SOURCE[0]}")")/terminal.sh"
set_up "${EMACS:-emacs}" "$@"
# (a home isn't taken for a project)
export HOME="$folder/home"; mkdir -p "$HOME/.emacs.d"
snippet emacs-lsp-mode.el > "$HOME/emacs-lsp-mode.el"
snippet emacs-abnf-mode.el > "$HOME/emacs-abnf-mode.el"
{
  echo '(setq make-backup-files nil create-lockfiles nil inhibit-startup-screen t native-comp-async-report-warnings-errors nil)'
  echo '(load "~/emacs-lsp-mode.el")'
} > "$HOME/.emacs.d/init.el"
"$editor" --batch -l package --eval '(progn (package-activate-all) (kill-emacs (if (locate-library "lsp-mode") 0 1)))' 2>/dev/null ||
  cannot "no lsp-mode in this Emacs"
run() { keys C-g; keys M-:; keys -l "$1"; keys Enter; }
# The echo area shows a hover after a movement, not after a command.
go() { run "(progn (goto-line $1) (move-to-column $2))"; keys C-f; keys C-b; }
ask() { keys M-x; keys -l "$1"; keys Enter; }

start "$editor" -nw "$file"
shows "a question, what the project is" 'Import project root'; keys i
shows "the server" 'LSP[abnf_ls'
run '(mapcar (function flymake-diagnostic-text) (flymake-diagnostics))'; shows "a diagnostic" 'bad character'
run '(remq nil (mapcar (function car) (imenu--make-index-alist)))'; shows "the outline" 'greeting' 'hello' 'NAME' 'name' 'id-right'
go 3 12; shows "a hover" 'shortest length 2' 'example hi'
go 3 12; keys M-.; shows "a definition" ' L4 '
# Before version 9 lsp-mode asks for the uses of a name, without its definitions. Each stands in the list beside the file.
go 5 1; ask lsp-find-references; times=2 shows "references" 'greeting = hello' 'x"/hello'; keys q; keys C-x 1
go 7 13; ask lsp-rename; keys C-a; keys C-k; keys -l salutation; keys Enter
sed 's/hello\([^"]\|$\)/salutation\1/g' "$folder/whole" > "$folder/renamed"
writes "a rename over the whole file" "$folder/renamed" C-x C-s
go 8 12; ask lsp-rename; shows "the whole name is proposed" 'Rename id-right to: id-right'
go 3 12; ask lsp-execute-code-action
sed 's/^salutation/; example hi\n&/' "$folder/renamed" > "$folder/with_example"
writes "the text with the example" "$folder/with_example" C-x C-s
old=$(server); ask lsp-workspace-restart; is_new "$old"
go 5 1; go 3 12; shows "a hover after it" 'shortest length 2' 'example hi'
draft; keys C-x C-f; keys C-a C-k; keys -l "$file"; keys Enter; shows "the server in a draft" 'LSP[abnf_ls' 'Markdown'
run '(mapcar (function flymake-diagnostic-text) (flymake-diagnostics))'; shows "a diagnostic there" 'undefined rule nope'
go 6 2; shows "a hover there" 'shortest length 2' 'example hi'
go 5 8; ask lsp-rename; shows "the whole name is proposed there" 'Rename id-right to: id-right'
keys C-a; keys C-k; keys -l id-left; keys Enter
writes "a rename there" "$folder/renamed_draft" C-x C-s
finish C-x C-c
