;;; emacs.el --- opens a case with a slip by editors/emacs, tells its mark, mends it, renames a node  -*- lexical-binding: t -*-

;;; Code:

(require 'emtp)
(require 'flymake)
(setq emtp-command (concat (getenv "TOP") "/emtp")
      eglot-sync-connect 60
      eglot-autoshutdown t
      eglot-confirm-server-initiated-edits nil
      make-backup-files nil)
(remove-hook 'emtp-mode-hook #'eglot-ensure)

(defun waits (what holds)
  "Wait until HOLDS is true, or end with what was waited for, WHAT."
  (let ((count 0))
    (while (and (< count 600) (not (funcall holds)))
      (accept-process-output nil 0.1)
      (setq count (1+ count)))
    (unless (funcall holds)
      (error "Emacs waited in vain for %s" what))))

(find-file (getenv "CASE"))
(apply #'eglot (eglot--guess-contact))
(flymake-mode 1)
(flymake-start)
(waits "a mark" #'flymake-diagnostics)
(message "%s" (flymake-diagnostic-text (car (flymake-diagnostics))))
(goto-char (point-min))
(forward-line 3)
(let ((fixes (eglot-code-actions (line-beginning-position) (line-end-position) nil)))
  (eglot--apply-workspace-edit (plist-get (elt fixes 0) :edit)))
(eglot--signal-textDocument/didChange) ; which waits for an idle moment otherwise
(goto-char (point-min))
(forward-line 3)
(forward-char 9)
(eglot-rename "LOAD")
(save-buffer)
(eglot-shutdown (eglot-current-server))

;;; emacs.el ends here
