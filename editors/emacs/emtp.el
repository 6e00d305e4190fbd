;;; emtp.el --- cases of emtp, served by `emtp lsp'  -*- lexical-binding: t -*-

;; Marks, hints, quick fixes, names and symbols come by eglot, which emacs has from 29 on, and elpa-eglot before.

;;; Code:

(require 'eglot)

(define-derived-mode emtp-mode fundamental-mode "EMTP"
  "A mode for cases, whose columns matter."
  (setq-local comment-start "C ")
  (setq-local indent-tabs-mode nil)
  (setq-local truncate-lines t))

(defvar emtp-command "emtp"
  "The command emtp.")

(add-to-list 'auto-mode-alist '("\\.case\\'" . emtp-mode))
(add-to-list 'eglot-server-programs (cons 'emtp-mode (lambda (_) (list emtp-command "lsp"))))
(add-hook 'emtp-mode-hook #'eglot-ensure)

(provide 'emtp)
;;; emtp.el ends here
