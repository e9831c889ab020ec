#!/usr/bin/env bash
# Runs a real Emacs (28 or later) in a terminal of tmux over drafts, by the set-up that editors/emacs-drafts.el gives: opens one in
# Markdown, looks at its diagnostics, one of them behind characters of one to four bytes, mends a name, opens one in RFCXML and one without
# a grammar, and ends.
# Usage: emacs-drafts.sh PROGRAM, where the program is abnf_findings. EMACS names the editor (emacs if left out). Status 0: all right, 1: a
# wrong mark, 2: it could not be tried. The snippet is taken as it stands, but for the path of the program.
set -euo pipefail
. "$(dirname -- "$(realpath -- "${BASH_SOURCE[0]}")")/terminal.sh"
set_up "${EMACS:-emacs}" "$@"
mkdir "$folder/.emacs.d"
{
  echo '(setq make-backup-files nil create-lockfiles nil inhibit-startup-screen t native-comp-async-report-warnings-errors nil)'
  snippet emacs-drafts.el
  # Of each diagnostic the line, its first and last column, in characters, and its kind
  cat <<'EL'
(defun abnf-mark (it)
  (save-excursion
    (goto-char (flymake-diagnostic-beg it))
    (let ((bol (line-beginning-position)))
      (list (line-number-at-pos) (- (point) bol) (- (flymake-diagnostic-end it) bol) (flymake-diagnostic-type it)))))
(defun abnf-marks ()
  (interactive)
  (message "marks %S" (sort (mapcar #'abnf-mark (flymake-diagnostics)) (lambda (one other) (< (car one) (car other))))))
EL
} > "$folder/.emacs.d/init.el"
drafts
marks() { # WHAT WANTED: after a while, since Flymake waits for half a second
  sleep 1; keys C-g; keys M-x; keys -l abnf-marks; keys Enter
  shows "$1" "marks $2"
}
go() { keys C-g; keys M-:; keys -l "(progn (goto-line $1) (end-of-line))"; keys Enter; }

start "$editor" -nw "$file"
shows "the file" '# A draft'
marks "the marks, one of them behind other characters" '((4 12 16 :error) (5 0 1 :warning) (6 10 14 :error))'
go 6; keys C-b; keys x; marks "a name that is typed" '((4 12 16 :error) (5 0 1 :warning) (6 10 15 :error))'
go 6; keys C-Left C-k; keys '"x"'; marks "once it is mended" '((4 12 16 :error) (5 0 1 :warning))'
keys C-x C-s; sleep 1
is "the file as it was typed" "$(sed -n 6p "$file")" 'c = "x" / "x"'
keys C-x C-f; keys -l draft-b.xml; keys Enter; marks "a draft in RFCXML" '((2 10 14 :error))'
keys C-x C-f; keys -l draft-c.md; keys Enter; marks "a draft without a grammar" 'nil'
finish C-x C-c
