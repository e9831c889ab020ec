;;; -*- lexical-binding: t -*-
;; Emacs with the package lsp-mode; a line in init.el that loads this file is enough:
;;   (load "~/.local/share/abnf_ls/editors/emacs-lsp-mode.el")
;; M-. goes from a name to its definition, M-? lists its uses, M-x lsp-rename renames it, M-x imenu has the outline, what a rule
;; generates at the shortest stands in the echo area, with the example, and M-x lsp-execute-code-action inserts that as a comment.
;; M-x lsp-workspace-restart starts the server anew. At the first grammar of a folder lsp-mode asks where the project lies: i is that
;; folder. Before lsp-mode 9 M-? leaves out the places that define the name.
;; It serves drafts too, beside another server: files in markdown-mode (a package) or nxml-mode that are named draft-*, or have the word
;; abnf when they are opened.
(load (expand-file-name "emacs-abnf-mode" (file-name-directory load-file-name)) nil t)
(with-eval-after-load 'lsp-mode
  (add-to-list 'lsp-language-id-configuration '(abnf-mode . "abnf"))
  (lsp-register-client
   (make-lsp-client :new-connection (lsp-stdio-connection '("/path/to/abnf_ls/out/abnf_ls"))
                    :activation-fn (lsp-activate-on "abnf" "markdown" "xml")
                    :initialization-options '(:drafts t)
                    :add-on? t
                    :server-id 'abnf_ls)))
(defun abnf-start-lsp ()
  "Start the server, and have all of a hover shown, whose second line is the example, and the findings beside it."
  (setq-local lsp-eldoc-render-all t
              eldoc-documentation-strategy #'eldoc-documentation-compose)
  (lsp))
(add-hook 'abnf-mode-hook #'abnf-start-lsp)
(defun abnf-start-in-draft ()
  "Start the server where this buffer is a draft."
  (when (abnf-is-draft)
    (abnf-start-lsp)))
(dolist (it abnf-draft-hooks) (add-hook it #'abnf-start-in-draft))
