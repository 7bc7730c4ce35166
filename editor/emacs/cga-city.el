;;; cga-city.el --- Scripts of cga_city: colours, and the language server by eglot  -*- lexical-binding: t -*-

;;; Commentary:
;; Emacs 29 has eglot; Emacs 26 to 28 take it as a package.

;;; Code:
(defgroup cga-city nil "Scripts of cga_city." :group 'languages)

(defcustom cga-city-language-server nil
  "The language server, as a list of a program and its words.
If it is nil, that of a repository above the script is taken, else one on the PATH."
  :type '(repeat string))

(defconst cga-city-words
  '(("\\_<\\(T\\|S\\|Rx\\|Ry\\|Rz\\|I\\|Subdiv\\|Repeat\\|Comp\\)\\_>" . font-lock-function-name-face)
    ("\\_<NIL\\_>" . font-lock-constant-face)
    ("\\_<\\(Scope\\|rand\\|floor\\|ceil\\|and\\|or\\|not\\)\\_>" . font-lock-keyword-face)
    ("^[ \t]*\\(rules\\|put\\|drop\\|attr\\|priority\\|lot\\|unlot\\|quiet\\|print\\|faults\\|grammar\\|stats\\)\\_>"
     . font-lock-builtin-face)
    ("^[ \t]*\\(order\\|city\\|dump\\|undo\\|redo\\|asset\\|dress\\|undress\\|model\\|bill\\|trace\\|judge\\)\\_>"
     . font-lock-builtin-face)
    ("^[ \t]*\\(PRIORITY\\|end\\|version\\)\\_>" . font-lock-preprocessor-face)
    ("^[ \t]*[0-9]+[ \t]*:[ \t]*\\([A-Za-z_][A-Za-z0-9_]*\\)" 1 font-lock-type-face)
    ("\\_<[0-9]+\\(\\.[0-9]+\\)?r?\\_>" . font-lock-constant-face)))

;;;###autoload
(define-derived-mode cga-city-mode prog-mode "cga_city"
  "Scripts and grammars of cga_city."
  (modify-syntax-entry ?# "<")
  (modify-syntax-entry ?\n ">")
  (modify-syntax-entry ?_ "w")
  (setq-local comment-start "# ")
  (setq-local font-lock-defaults '(cga-city-words)))

;;;###autoload
(add-to-list 'auto-mode-alist '("\\.cga\\'" . cga-city-mode))

(defun cga-city-server (&rest _)
  "The language server's program and words."
  (let ((above (locate-dominating-file default-directory "tools/language_server")))
    (cond (cga-city-language-server)
          (above (list (expand-file-name "tools/language_server" above)))
          (t '("language_server")))))

(with-eval-after-load 'eglot
  (add-to-list 'eglot-server-programs '(cga-city-mode . cga-city-server)))

(provide 'cga-city)
;;; cga-city.el ends here
