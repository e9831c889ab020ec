#!/usr/bin/env bash
# Runs a real Emacs (28 with the package eglot, or 29 and later) in batch mode against the language server, by the set-up that
# editors/emacs-eglot.el gives: opens a grammar, asks for its outline, a definition and a hover, and for what eldoc is given of that to
# show, looks at its diagnostics, goes through the references of a name, renames it and back, takes the code action, asks for the
# semantic tokens, edits, asks again, opens a CRLF file, one with characters of one to four bytes before names and a draft, and shuts down. It
# does so with what this Emacs offers of itself, and then with positions that count characters (utf-32) offered alone.
# Usage: emacs.sh PROGRAM. EMACS names the editor (emacs if left out). Status 0: all right, 1: a wrong answer, 2: it could not be tried.
# Of the snippet the program's path is another, and eglot-ensure is left out: it waits for a command, and none comes in batch mode.
set -euo pipefail
[ $# -eq 1 ] || { echo "usage: emacs.sh PROGRAM" >&2; exit 2; }
program=$(realpath -- "$1")
[ -x "$program" ] || { echo "emacs.sh: no program at $program" >&2; exit 2; }
editors=$(dirname -- "$(realpath -- "${BASH_SOURCE[0]}")")/..
emacs=${EMACS:-emacs}
command -v "$emacs" >/dev/null || { echo "emacs.sh: no $emacs" >&2; exit 2; }
folder=$(mktemp -d "${TMPDIR:-/tmp}/try emacs ü.XXXXXX")
trap 'rm -rf -- "$folder"' EXIT
export TRY_FOLDER=$folder HOME=$folder LC_ALL=C.UTF-8
printf '; a gr\303\244mmar \360\237\230\200\n\ngreeting = hello SP name ; \360\237\230\200\nhello    = "hi" / "hello"\nNAME     = 1*ALPHA\nname    =/ "\360\237\230\200"/hello/name\n' > "$folder/a.abnf"
sed 's/$/\r/' "$folder/a.abnf" > "$folder/dos.abnf"
printf 'a = <\303\251\342\202\254\360\237\230\200> / b / nope ; \360\237\230\200 \303\251\nb = "x"\n' > "$folder/wide.abnf"
printf '%s\n' '<rfc><artwork type="abnf">' 'a = &lt;😀&gt; nope' 'b = id-right' 'id-right = "hi"' '</artwork></rfc>' > "$folder/draft.xml"

ln -s -- "$program" "$folder/the program"
sed -e "s#/path/to/abnf_ls/out/abnf_ls#$folder/the program#" -e 's/eglot-ensure/ignore/' "$editors/emacs-eglot.el" > "$folder/set-up.el"
cp -- "$editors/emacs-abnf-mode.el" "$folder/"

cat > "$folder/try.el" <<'EL'
;; -*- lexical-binding: t -*-
;; eglot keeps what goes to and fro in a buffer, and nothing here reads it
(setq eglot-events-buffer-size 0 eglot-events-buffer-config '(:size 0 :format short))
(package-initialize)
(unless (require 'eglot nil t) (message "emacs.sh: no eglot in this Emacs") (kill-emacs 2))
(require 'cl-lib) (require 'imenu) (require 'xref)
(load (expand-file-name "set-up.el" (getenv "TRY_FOLDER")) nil t)
(setq make-backup-files nil create-lockfiles nil auto-save-default nil enable-local-variables nil)
(defvar failed 0)
(defvar offered (getenv "TRY_ENCODING"))
(unless (equal offered "")
  (advice-add 'eglot-client-capabilities :filter-return
              (lambda (it) (plist-put it :general (list :positionEncodings (vector offered)))))
  ;; an older eglot doesn't read what is agreed
  (when (boundp 'eglot-current-column-function)
    (setq-default eglot-current-column-function 'eglot-current-column
                  eglot-move-to-column-function 'eglot-move-to-column)))
(defun encoding ()
  "What positions count."
  (plist-get (eglot--capabilities (eglot-current-server)) :positionEncoding))
(defun units (text)
  (pcase (encoding)
    ("utf-8" (string-bytes text))
    ("utf-32" (length text))
    (_ (+ (length text) (cl-count-if (lambda (it) (> it #xffff)) text)))))
(defun is (what got want)
  (if (equal got want) (princ (format "ok   %s\n" what))
    (cl-incf failed)
    (princ (format "FAIL %s\n     got  %S\n     want %S\n" what got want))))
(defun told ()
  "Tells the server of edits now: eglot waits for idleness, and there is none in batch mode."
  (eglot--signal-textDocument/didChange))
(defun leaves (index)
  (cl-loop for item in index
           append (if (and (consp (cdr item)) (consp (cadr item))) (leaves (cdr item)) (list item))))
(defun outline ()
  (told)
  (sort (cl-loop for (name . place) in (condition-case nil (leaves (funcall imenu-create-index-function)) (imenu-unavailable nil))
                 unless (string-prefix-p "*" name)
                 collect (cons (line-number-at-pos (if (consp place) (car place) place)) (substring-no-properties name)))
        #'car-less-than-car))
(defun definition (line word)
  (told)
  (goto-char (point-min)) (forward-line (1- line)) (search-forward word) (goto-char (match-beginning 0))
  (sort (mapcar (lambda (item) (line-number-at-pos (xref-location-marker (xref-item-location item))))
                (xref-backend-definitions 'eglot (xref-backend-identifier-at-point 'eglot)))
        #'<))
(defun hover (line word)
  (told)
  (goto-char (point-min)) (forward-line (1- line)) (search-forward word) (goto-char (match-beginning 0))
  (plist-get (plist-get (jsonrpc-request (eglot-current-server) :textDocument/hover (eglot--TextDocumentPositionParams)) :contents) :value))
(defun shown (line word)
  "What eldoc is given of a hover for the echo area, by all functions that it asks, each text cut where eldoc is told to cut it."
  (go line word)
  (let* ((texts nil)
         (show (lambda (text &rest plist)
                 (let ((echo (plist-get plist :echo)))
                   (when (and text (not (eq echo 'skip)))
                     (push (cond ((stringp echo) echo) ((integerp echo) (substring text 0 echo)) (t text)) texts)))))
         (hovers (lambda () (cl-remove-if-not (lambda (it) (string-prefix-p "shortest" it)) (mapcar #'substring-no-properties texts)))))
    (run-hook-wrapped 'eldoc-documentation-functions
                      (lambda (ask) (let ((got (funcall ask show))) (when (stringp got) (funcall show got))) nil))
    (with-timeout (10) (while (null (funcall hovers)) (accept-process-output nil 0.05)))
    (accept-process-output nil 0.2)
    (funcall hovers)))
(defun text () (buffer-substring-no-properties (point-min) (point-max)))
(defun go (line word)
  (told)
  (goto-char (point-min)) (forward-line (1- line)) (search-forward word) (goto-char (match-beginning 0)))
(defun references (line word)
  "The lines and columns of the places of a name, in characters from 0."
  (go line word)
  (sort (mapcar (lambda (item)
                  (let ((at (xref-location-marker (xref-item-location item))))
                    (with-current-buffer (marker-buffer at)
                      (save-excursion (goto-char at) (cons (line-number-at-pos) (- (point) (line-beginning-position)))))))
                (xref-backend-references 'eglot (xref-backend-identifier-at-point 'eglot)))
        #'car-less-than-car))
(defun renamed (line word new)
  "The text once a name is renamed, or why it isn't."
  (go line word)
  (condition-case why (progn (eglot-rename new) (text))
    (jsonrpc-error (alist-get 'jsonrpc-error-message (cddr why)))))
(defun acted (line word)
  "The text once the first code action is taken, behind the titles of all."
  (go line word)
  (let ((titles (mapcar (lambda (it) (plist-get it :title)) (eglot-code-actions (point) nil)))
        (last-nonmenu-event t))
    (cl-letf (((symbol-function 'completing-read) (lambda (_prompt items &rest _) (caar items))))
      (eglot-code-actions (point) nil nil t))
    (append titles (list (text)))))
(defun tokens ()
  (told)
  (append (plist-get (jsonrpc-request (eglot-current-server) :textDocument/semanticTokens/full
                                      (list :textDocument (eglot--TextDocumentIdentifier)))
                     :data)
          nil))
(defun with (text &rest pairs)
  "The text with each of these changed."
  (cl-loop for (from to) on pairs by #'cddr do (setq text (replace-regexp-in-string from to text t t)))
  text)
(defun found ()
  "The line, the code and the message of each of flymake's diagnostics, in whichever form this eglot joins these."
  (sort (mapcar (lambda (it)
                  (let ((text (flymake-diagnostic-text it)))
                    (list (line-number-at-pos (flymake-diagnostic-beg it))
                          (and (string-match "\\[\\([a-z-]+\\)\\]" text) (match-string 1 text))
                          (replace-regexp-in-string "\\`.*: " "" text))))
                (flymake-diagnostics))
        #'car-less-than-car))
(defun diagnostics (&rest wanted)
  "What flymake shows, once it is what is wanted or ten seconds have passed.
Each turn asks anew, and by force, so that it doesn't matter when eglot hands on what the server has sent, or whether flymake gave it up."
  (told)
  (with-timeout (10)
    (while (progn (flymake-start nil t) (accept-process-output nil 0.05) (not (equal (found) wanted)))))
  (found))
(defun start (file)
  (find-file (expand-file-name file (getenv "TRY_FOLDER")))
  (unless (and (fboundp 'eglot-managed-p) (eglot-managed-p)) (apply #'eglot (eglot--guess-contact)))
  (is (concat "managed: " file) (and (eglot-managed-p) t) t))
(condition-case err
    (progn
      (start "a.abnf")
      (is "mode" major-mode 'abnf-mode)
      (is "what positions count" (encoding) (if (equal offered "") (encoding) offered))
      (is "outline" (outline) '((3 . "greeting") (4 . "hello") (5 . "NAME") (6 . "name")))
      (is "definition" (definition 3 "hello") '(4))
      (is "definition in two places" (definition 3 "name") '(5 6))
      (is "definition at the end of a name behind an emoji" (definition 6 "/name") '(4))
      (is "hover" (hover 4 "hello") "shortest length 2\nexample hi")
      (is "what is shown of it" (shown 4 "hello") '("shortest length 2\nexample hi"))
      (is "diagnostics" (diagnostics '(6 "syntax" "bad character")) '((6 "syntax" "bad character")))
      (is "references" (references 3 "hello") '((3 . 11) (4 . 0) (6 . 15)))
      (is "semantic tokens" (tokens)
          `(0 0 ,(units "; a grämmar 😀") 4 0 2 0 8 0 1 0 9 1 3 0 0 2 5 0 0 0 6 2 0 2 0 3 4 0 0 0 5 ,(units "; 😀") 4 0
            1 0 5 0 1 0 9 1 3 0 0 2 4 1 0 0 5 1 3 0 0 2 7 1 0
            1 0 4 0 1 0 9 1 3 0 0 2 2 3 0 0 2 5 0 2
            1 0 4 0 1 0 8 2 3 0 0 ,(units "=/ \"😀\"") 1 3 0 0 1 5 0 0 0 5 1 3 0 0 1 4 0 0))
      (is "a name in use" (renamed 4 "hello" "Greeting") "name in use")
      (is "no name" (renamed 4 "hello" "2x") "not a rule name")
      (is "a core rule" (renamed 3 "SP" "space") "nothing to rename")
      (let ((whole (text)))
        (is "a rename over the whole file" (renamed 6 "hello" "salutation")
            (with whole "= hello" "= salutation" "^hello" "salutation" "/hello" "/salutation"))
        (is "outline after it" (outline) '((3 . "greeting") (4 . "salutation") (5 . "NAME") (6 . "name")))
        (is "hover after it" (hover 3 "salutation") "shortest length 2\nexample hi")
        (is "and back" (renamed 3 "salutation" "hello") whole)
        (is "code action" (acted 3 "hello") (list "Insert shortest example" (with whole "^hello" "; example hi\nhello")))
        (is "outline after it" (outline) '((3 . "greeting") (5 . "hello") (6 . "NAME") (7 . "name")))
        (goto-char (point-min)) (forward-line 3) (kill-whole-line)
        (is "the text again" (text) whole))
      (goto-char (point-max)) (insert "broken = (hello\n")
      (is "one fault more while it stands" (diagnostics '(6 "syntax" "bad character") '(7 "syntax" "bracket not closed"))
          '((6 "syntax" "bad character") (7 "syntax" "bracket not closed")))
      (forward-line -1) (kill-whole-line)
      (is "and once it is mended" (diagnostics '(6 "syntax" "bad character")) '((6 "syntax" "bad character")))
      (buffer-enable-undo)
      (goto-char (point-min)) (insert "first = \"😀\" / hello ; 漢\n\n") (undo-boundary)
      (is "outline after an insertion" (outline) '((1 . "first") (5 . "greeting") (6 . "hello") (7 . "NAME") (8 . "name")))
      (is "definition after it" (definition 1 "hello") '(6))
      (goto-char (point-min)) (forward-line 4) (kill-whole-line) (undo-boundary)
      (is "outline after a deletion" (outline) '((1 . "first") (5 . "hello") (6 . "NAME") (7 . "name")))
      (primitive-undo 2 buffer-undo-list)
      (is "outline after an undo" (mapcar #'cdr (outline))
          (append (unless (= (line-number-at-pos (point-max)) 7) '("first")) '("greeting" "hello" "NAME" "name")))
      (let ((all (buffer-string)) (count (length (outline)))) (goto-char (point-max)) (insert all)
        (is "symbols after a paste" (length (outline)) (* 2 count)))
      (erase-buffer)
      (is "outline of nothing" (outline) nil)
      (dotimes (i 100) (goto-char (point-min)) (insert (format "x%d = %%x41\n" i)) (insert "; é😀\n") (told))
      (is "symbols after 100 quick edits" (length (outline)) 100)
      (set-buffer-modified-p nil)
      (start "dos.abnf")
      (is "outline with CRLF" (outline) '((3 . "greeting") (4 . "hello") (5 . "NAME") (6 . "name")))
      (goto-char (point-min)) (forward-line 5) (insert "new = hello\n")
      (is "outline with CRLF after an edit" (outline) '((3 . "greeting") (4 . "hello") (5 . "NAME") (6 . "new") (7 . "name")))
      (is "definition with CRLF" (definition 6 "hello") '(4))
      (let ((whole (text)))
        (is "a rename with CRLF" (renamed 3 "hello" "hi") (with whole "= hello" "= hi" "^hello" "hi" "/hello" "/hi")))
      (is "references with CRLF" (references 4 "hi") '((3 . 11) (4 . 0) (6 . 6) (7 . 15)))
      (set-buffer-modified-p nil)
      (start "wide.abnf")
      (is "a diagnostic behind wide characters" (diagnostics '(1 "undefined" "undefined rule nope"))
          '((1 "undefined" "undefined rule nope")))
      (is "its column, in characters from 0" (1- (flymake-diagnostic-beg (car (flymake-diagnostics)))) 16)
      (is "a definition from there" (definition 1 "b") '(2))
      (is "hover there" (hover 1 "b") "shortest length 1\nexample x")
      (is "hover on a name that nothing defines" (hover 1 "nope") "undefined")
      (let ((whole (text)))
        (is "a rename there" (renamed 1 "b" "bee") (with whole " b " " bee " "^b" "bee")))
      (is "references there" (references 2 "bee") '((1 . 12) (2 . 0)))
      (set-buffer-modified-p nil)
      (eglot-shutdown (eglot-current-server))
      (start "draft.xml")
      (is "what positions count in a draft" (encoding) (if (equal offered "") (encoding) offered))
      (is "outline of it" (outline) '((2 . "a") (3 . "b") (4 . "id-right")))
      (is "a diagnostic in it" (diagnostics '(2 "undefined" "undefined rule nope")) '((2 "undefined" "undefined rule nope")))
      (is "its column, in characters from 0" (progn (goto-char (flymake-diagnostic-beg (car (flymake-diagnostics)))) (- (point) (line-beginning-position))) 14)
      (is "hover in it" (hover 3 "id-right") "shortest length 2\nexample hi")
      (is "what is shown of that" (shown 3 "id-right") '("shortest length 2\nexample hi"))
      (is "the name that a rename proposes" (thing-at-point 'symbol t) "id-right")
      (let ((whole (text)))
        (is "a rename in it" (renamed 3 "right" "id-left") (with whole "id-right" "id-left")))
      (set-buffer-modified-p nil)
      (eglot-shutdown (eglot-current-server)))
  (error (cl-incf failed) (princ (format "FAIL %S\n" err))))
(kill-emacs (if (zerop failed) 0 1))
EL
for encoding in '' utf-32; do
  status=0
  echo "offered: ${encoding:-what it does of itself}"
  TRY_ENCODING=$encoding timeout 90 "$emacs" -q --batch -l "$folder/try.el" 2>"$folder/stderr" || status=$?
  [ "$status" != 2 ] || { cat "$folder/stderr" >&2; exit 2; }
  if [ "$status" != 0 ]; then
    cat "$folder/stderr" >&2
    echo "emacs.sh: failed with status $status ($("$emacs" --version | head -1))" >&2
    exit 1
  fi
done
echo "emacs.sh: passed ($("$emacs" --version | head -1))"
