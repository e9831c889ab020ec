;;; -*- lexical-binding: t -*-
;; The mode for ABNF that emacs-eglot.el and emacs-lsp-mode.el load. Its colours stand for those of the server, which eglot up to 1.17
;; doesn't show, and lsp-mode only where lsp-semantic-tokens-enable is set.
(defvar abnf-font-lock
  '(("<[^>\n]*>" . font-lock-doc-face)
    ("^[ \t]*\\([a-z][a-z0-9-]*\\)[ \t]*=" 1 font-lock-function-name-face)
    ("%[bdx][0-9a-f]+\\(?:[.-][0-9a-f]+\\)*" . font-lock-constant-face)
    ("\\(%[is]\\)\"" 1 font-lock-constant-face)
    ("\\_<[0-9]*\\(ALPHA\\|BIT\\|CHAR\\|CRLF\\|CR\\|CTL\\|DIGIT\\|DQUOTE\\|HEXDIG\\)\\_>" 1 font-lock-builtin-face)
    ("\\_<[0-9]*\\(HTAB\\|LF\\|LWSP\\|OCTET\\|SP\\|VCHAR\\|WSP\\)\\_>" 1 font-lock-builtin-face)
    ("=/?\\|/\\|[0-9]*\\*[0-9]*\\|\\_<[0-9]+" . font-lock-keyword-face))
  "What is coloured in a grammar beside comments and strings.")
(define-derived-mode abnf-mode prog-mode "ABNF"
  "Major mode for ABNF grammars (RFC 5234)."
  :syntax-table (let ((table (make-syntax-table)))
                  (modify-syntax-entry ?\; "<" table)
                  (modify-syntax-entry ?\n ">" table)
                  ;; a hyphen belongs to a name, and an operator before it doesn't
                  (modify-syntax-entry ?- "w" table)
                  (dolist (it '(?\\ ?* ?/ ?= ?< ?> ?% ?+ ?& ?| ?_ ?$)) (modify-syntax-entry it "." table))
                  table)
  (setq-local comment-start "; "
              comment-start-skip ";+\\s-*"
              font-lock-defaults '(abnf-font-lock nil t)
              imenu-auto-rescan t
              indent-tabs-mode nil))
(add-to-list 'auto-mode-alist '("\\.abnf\\'" . abnf-mode))
(defconst abnf-draft-hooks '(markdown-mode-hook markdown-ts-mode-hook nxml-mode-hook)
  "The hooks of the modes in which drafts are written.")
(defun abnf-is-draft ()
  "Whether this buffer's file is named draft-*, or has the word abnf."
  (and buffer-file-name
       (or (string-prefix-p "draft-" (file-name-nondirectory buffer-file-name))
           (let ((case-fold-search t))
             (save-excursion (goto-char (point-min)) (search-forward "abnf" nil t))))))
