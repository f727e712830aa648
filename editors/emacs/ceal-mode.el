;;; ceal-mode.el --- CEAL programs and their scripts  -*- lexical-binding: t -*-

;;; Commentary:
;; (add-to-list 'load-path "REPOSITORY/editors/emacs")
;; (require 'ceal-mode)
;; M-x compile checks the file by ./run check, and next-error goes to its fault.

;;; Code:

(require 'compile)

(defgroup ceal nil "CEAL programs and their scripts." :group 'languages)

(defcustom ceal-run "./run"
  "The script that runs CEAL programs, as it is called where the file is compiled."
  :type 'string :group 'ceal)

(defvar ceal-mode-syntax-table
  (let ((table (make-syntax-table)))
    (modify-syntax-entry ?/ ". 124b" table)
    (modify-syntax-entry ?* ". 23" table)
    (modify-syntax-entry ?\n "> b" table)
    (modify-syntax-entry ?_ "_" table)
    (modify-syntax-entry ?% "." table)
    table)
  "What the characters of a CEAL program are.")

(defconst ceal-font-lock-keywords
  (list
   (list (regexp-opt '("if" "else" "while" "break" "continue" "return" "ceal" "init" "struct") 'symbols) '(0 font-lock-keyword-face))
   (list (regexp-opt '("read" "write" "alloc" "modref") 'symbols) '(0 font-lock-builtin-face))
   (list (regexp-opt '("int" "mod") 'symbols) '(0 font-lock-type-face))
   (list (regexp-opt '("null" "self") 'symbols) '(0 font-lock-constant-face))
   '("\\_<\\(?:ceal\\|init\\)\\s-+\\(\\(?:\\sw\\|\\s_\\)+\\)" 1 font-lock-function-name-face)
   '("^%%\r?$" . font-lock-preprocessor-face)
   ;; the lines of a script, which begin at the margin as those of a source text do not
   (list (concat "^\\(@\\(?:\\sw\\|\\s_\\)+\\s-+\\)?"
                 (regexp-opt '("mod" "new" "set" "run" "propagate" "get" "show" "blocks" "steps" "work" "bound" "changed") t) "\\_>")
         '(1 font-lock-variable-name-face nil t) '(2 font-lock-keyword-face t)))
  "What is highlighted in a CEAL program.")

;;;###autoload
(define-derived-mode ceal-mode prog-mode "CEAL"
  "A mode for CEAL programs and their scripts."
  (setq-local font-lock-defaults '(ceal-font-lock-keywords))
  (setq-local comment-start "// " comment-end "" comment-start-skip "\\(?://+\\|/\\*+\\)\\s *")
  (setq-local indent-tabs-mode nil tab-width 2)
  (when buffer-file-name
    (setq-local compile-command (concat ceal-run " check " (shell-quote-argument (file-relative-name buffer-file-name))))))

(add-to-list 'compilation-error-regexp-alist-alist '(ceal "^run: \\([^:\n]+\\):\\([0-9]+\\):\\([0-9]+\\): " 1 2 3))
(add-to-list 'compilation-error-regexp-alist 'ceal)

;;;###autoload
(add-to-list 'auto-mode-alist '("\\.ceal\\'" . ceal-mode))

(provide 'ceal-mode)
;;; ceal-mode.el ends here
