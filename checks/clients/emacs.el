;; Opens the program $LUS_FILE in an Emacs without a screen, with editors/emacs/lus-mode.el and eglot, mends it by quick fixes and lays
;; it out. Says what eglot is told, a line each.
(dolist (folder (file-expand-wildcards "/usr/share/emacs/site-lisp/elpa/*")) (add-to-list 'load-path folder))
(require 'eglot)
(require 'lus-mode)
(setq eglot-sync-connect t eglot-autoshutdown t eglot-events-buffer-size 0 eglot-confirm-server-initiated-edits nil
      eglot-send-changes-idle-time 0 make-backup-files nil create-lockfiles nil)

(defun say (&rest words) (princ (concat (mapconcat (lambda (it) (format "%s" it)) words " ") "\n")))

(defvar lus-told 'none)
(advice-add 'eglot-handle-notification :after
            (lambda (_server method &rest more)
              (when (eq method 'textDocument/publishDiagnostics) (setq lus-told (append (plist-get more :diagnostics) nil)))))

(defun lus-wait ()
  (let ((until (+ (float-time) 20)))
    (while (and (eq lus-told 'none) (< (float-time) until)) (accept-process-output nil 0.05))
    (when (eq lus-told 'none) (say "FAIL no diagnostics") (kill-emacs 1)))
  (say "diagnostics" (length lus-told))
  (dolist (it lus-told)
    (say " " (plist-get it :code) (plist-get (plist-get (plist-get it :range) :start) :line) (car (split-string (plist-get it :message) "\n")))))

(defun lus-mend ()
  (let* ((range (plist-get (car lus-told) :range))
         (asked (list :textDocument (eglot--TextDocumentIdentifier) :range range :context (list :diagnostics [])))
         (action (aref (jsonrpc-request (eglot-current-server) :textDocument/codeAction asked) 0)))
    (say "quick fix" (plist-get action :title))
    (setq lus-told 'none)
    (eglot--apply-workspace-edit (plist-get action :edit))
    (eglot--signal-textDocument/didChange)
    (lus-wait)))

(find-file (getenv "LUS_FILE"))
(apply #'eglot (eglot--guess-contact))
(lus-wait)
(let ((turns 9))
  (while (and lus-told (> turns 0))
    (setq turns (1- turns))
    (lus-mend)))
(eglot-format-buffer)
(say "outline" (length (eglot-imenu)))
(say (buffer-string))
(set-buffer-modified-p nil)
(eglot-shutdown (eglot-current-server))
(say "ended")
