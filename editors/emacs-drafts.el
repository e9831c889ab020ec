;;; -*- lexical-binding: t -*-
;; Emacs 28 or later, in drafts; a line in init.el that loads this file is enough:
;;   (load "~/.local/share/abnf_ls/editors/emacs-drafts.el")
;; Of draft-*.md (Markdown) and draft-*.xml (RFCXML) abnf_findings looks at the text as it is in Emacs, half a second after a change.
;; Flymake marks the faults of the grammar: M-x flymake-goto-next-error goes to the next one, and M-x flymake-show-buffer-diagnostics
;; lists them. A draft without a grammar has no mark.
(require 'flymake)
(defvar abnf-findings-program "/path/to/abnf_ls/out/abnf_findings"
  "The program that finds the faults of a draft's grammar.")
(defun abnf-draft-format ()
  "What the draft of this buffer is written in; nil where it is none."
  (let ((name (file-name-nondirectory (or buffer-file-name ""))))
    (cond ((string-match-p "\\`draft-.*\\.md\\'" name) "markdown")
          ((string-match-p "\\`draft-.*\\.xml\\'" name) "xml"))))
(defun abnf-draft-said ()
  "The lines that `abnf-findings-program' prints of this buffer."
  (let ((draft (current-buffer)) (format (abnf-draft-format))
        (coding-system-for-write 'utf-8-unix) (coding-system-for-read 'utf-8-unix))
    (with-temp-buffer
      (let ((said (current-buffer)))
        (with-current-buffer draft
          (save-restriction
            (widen)
            (call-process-region nil nil abnf-findings-program nil (list said nil) nil "--format" format "-"))))
      (split-string (buffer-string) "\n" t))))
(defun abnf-draft-region (line column)
  "Where the name stands that begins at COLUMN of LINE, which counts characters, or the one character that does."
  (save-excursion
    (save-restriction
      (widen)
      (goto-char (point-min))
      (forward-line (1- line))
      (goto-char (min (+ (point) (1- column)) (line-end-position)))
      (when (and (eolp) (not (bolp)))
        (backward-char))
      (let ((beg (point)))
        (when (and (zerop (skip-chars-forward "A-Za-z0-9-")) (not (eobp)))
          (forward-char))
        (cons beg (point))))))
(defun abnf-draft-diagnostic (said)
  "The diagnostic of a line that SAID a finding; nil of any other."
  (when (and (string-match "\\`-:\\([0-9]+\\):\\([0-9]+\\): \\(error\\|warning\\): \\(.*\\) \\[\\([a-z-]+\\)\\]\\'" said)
             (not (equal (match-string 5 said) "no-grammar")))
    (let ((kind (if (equal (match-string 3 said) "error") :error :warning)) (text (match-string 4 said))
          (region (abnf-draft-region (string-to-number (match-string 1 said)) (string-to-number (match-string 2 said)))))
      (flymake-make-diagnostic (current-buffer) (car region) (cdr region) kind text))))
(defun abnf-draft-flymake (report &rest _)
  "Give REPORT the findings of this buffer, as a function of `flymake-diagnostic-functions'."
  (funcall report (delq nil (mapcar #'abnf-draft-diagnostic (abnf-draft-said)))))
(defun abnf-watch-draft ()
  "Have Flymake mark what is found in this buffer, where it is a draft."
  (when (abnf-draft-format)
    (add-hook 'flymake-diagnostic-functions #'abnf-draft-flymake nil t)
    (flymake-mode 1)))
(add-hook 'find-file-hook #'abnf-watch-draft)
