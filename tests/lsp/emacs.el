;; Drives Emacs without a window over the server, with the client of editors/emacs, and writes what comes of it:
;;   PSG=PROGRAM FILE=.. DEF=.. KIND=.. FROM=TEXT TO=TEXT emacs --batch -l emacs.el
(require 'package)
(package-initialize)
(load (expand-file-name "../../editors/emacs/psg.el" (file-name-directory load-file-name)))
(setq eglot-sync-connect 10 eglot-autoshutdown nil eglot-extend-to-xref nil eglot-send-changes-idle-time 0.05
      eglot-events-buffer-size 0 inhibit-message t)
(setq psg-program (getenv "PSG"))
(psg-language 'psgtest (getenv "DEF") (getenv "KIND") "\\.txt\\'")

(defun say (what text) (princ (format "%s: %s\n" what text)))
(defun pause (seconds)
  (let ((end (+ (float-time) seconds))) (while (< (float-time) end) (accept-process-output nil 0.05))))
(defun tell (what)
  (flymake-start)
  (pause 1)
  (let ((found (sort (flymake-diagnostics) (lambda (a b) (< (flymake-diagnostic-beg a) (flymake-diagnostic-beg b))))))
    (if found
        (dolist (it found)
          (goto-char (flymake-diagnostic-beg it))
          (say what (format "%d:%d %s" (line-number-at-pos) (1+ (current-column)) (flymake-diagnostic-text it))))
      (say what "nothing"))))

(condition-case fault
    (progn
      (find-file (getenv "FILE"))
      (cl-letf (((symbol-function 'project-current) (lambda (&rest _) (cons 'transient default-directory))))
        (apply #'eglot--connect (eglot--guess-contact)))
      (pause 1)
      (flymake-mode 1)
      (tell "opened")
      (goto-char (point-min))
      (search-forward (getenv "FROM"))
      (replace-match (getenv "TO") t t)
      (eglot--signal-textDocument/didChange)
      (pause 1)
      (tell "changed")
      (eglot-format-buffer)
      (dolist (line (split-string (buffer-substring-no-properties (point-min) (point-max)) "\n" t)) (say "formatted" line))
      (eglot-shutdown (eglot-current-server)))
  (error (say "fault" (error-message-string fault))))
(set-buffer-modified-p nil)
(kill-emacs 0)
