;;; -*- lexical-binding: t -*-
;; Emacs 29 or later, or 28 with the package eglot; a line in init.el that loads this file is enough:
;;   (load "~/.local/share/abnf_ls/editors/emacs-eglot.el")
;; M-. goes from a name to its definition, M-? lists its places, M-x eglot-rename renames it, M-x imenu has the outline, and what a rule
;; generates at the shortest stands in the echo area while point is on its name, with the example; M-x eglot-code-actions inserts that
;; as a comment. M-x eglot-reconnect starts the server anew.
;; It serves drafts too: files in markdown-mode (a package) or nxml-mode that are named draft-*, or have the word abnf when they are opened.
;; eglot has one server for a mode in a project. Where one runs already it stays, and this one isn't started. Where a draft is to have
;; another always, leave this one out, and have faults marked beside the other by emacs-drafts.el:
;;   (remove-hook 'markdown-mode-hook #'abnf-start-in-draft)
(load (expand-file-name "emacs-abnf-mode" (file-name-directory load-file-name)) nil t)
(defconst abnf-server '("/path/to/abnf_ls/out/abnf_ls" :initializationOptions (:drafts t))
  "How eglot starts the server.")
(with-eval-after-load 'eglot
  (add-to-list 'eglot-server-programs (cons 'abnf-mode abnf-server)))
(add-hook 'abnf-mode-hook #'eglot-ensure)
(defun abnf-start-in-draft ()
  "Start the server where this buffer is a draft; other buffers keep what eglot has for their mode."
  (when (and (abnf-is-draft) (require 'eglot) (not (eglot-current-server)))
    (setq-local eglot-server-programs
                `((((markdown-mode :language-id "markdown") (markdown-ts-mode :language-id "markdown")) . ,abnf-server)
                  (((nxml-mode :language-id "xml")) . ,abnf-server)
                  ,@eglot-server-programs))
    (eglot-ensure)))
(dolist (it abnf-draft-hooks) (add-hook it #'abnf-start-in-draft))
;; The eglot of Emacs 30 (1.17) leaves a path with characters outside ASCII in bytes, and then finds no buffer for the findings. This
;; decodes such a path, of each server.
(defun abnf-decoded-path (path)
  "PATH, decoded from UTF-8 where its bytes aren't yet."
  (and path (decode-coding-string path 'utf-8)))
(with-eval-after-load 'eglot
  (when (fboundp 'eglot-uri-to-path)
    (advice-add 'eglot-uri-to-path :filter-return #'abnf-decoded-path)))
;; A later eglot has eldoc cut a hover behind its first line, before the example. This has it shown whole, in grammars and drafts alone.
(defun abnf-show-hover (show text &rest _)
  "Show TEXT by SHOW, all of it."
  (funcall show text))
(defun abnf-hover (show &rest _)
  "As `eglot-hover-eldoc-function', with all lines of the hover."
  (when (eglot-current-server)
    (eglot-hover-eldoc-function (apply-partially #'abnf-show-hover show))))
(defun abnf-use-hover ()
  "Have eldoc ask `abnf-hover' in place of eglot's own function."
  (when (and (or (derived-mode-p 'abnf-mode) (abnf-is-draft)) (memq #'eglot-hover-eldoc-function eldoc-documentation-functions))
    (remove-hook 'eldoc-documentation-functions #'eglot-hover-eldoc-function t)
    (add-hook 'eldoc-documentation-functions #'abnf-hover nil t)))
(add-hook 'eglot-managed-mode-hook #'abnf-use-hover)
