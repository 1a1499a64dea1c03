;;; psg.el --- a client of psg's language server -*- lexical-binding: t -*-

;; For Emacs 28 with eglot, and 29, which has it.
;;
;;   (load "/path/to/psg/editors/emacs/psg.el")
;;   (setq psg-program "/path/to/psg/psg")
;;   (psg-language 'melody "/path/to/melody.psg" "Melody" "\\.melody\\'")
;;
;; A file whose name fits the pattern is a program of the kind, in a mode of its own. M-x eglot starts the server: mistakes are
;; marked while the program is edited, and M-x eglot-format lays it out as the printer does.

;;; Code:

(require 'eglot)

(defvar psg-program "psg"
  "The command that starts psg.")

(defun psg-language (name definition kind pattern)
  "Make the mode NAME-mode of the language of the file DEFINITION.
Its programs are of the kind KIND, in files whose names fit PATTERN."
  (let ((mode (intern (format "%s-mode" name))))
    (eval `(define-derived-mode ,mode prog-mode ,(format "%s" name)
             ,(format "Programs of %s, of which psg's server tells what is wrong." (file-name-nondirectory definition))))
    (add-to-list 'auto-mode-alist (cons pattern mode))
    (add-to-list 'eglot-server-programs
                 (list mode psg-program "lsp" (expand-file-name definition) kind))
    mode))

(provide 'psg)
;;; psg.el ends here
