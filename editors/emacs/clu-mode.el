;;; clu-mode.el --- Major mode for CLU programs  -*- lexical-binding: t -*-

;; SPDX-License-Identifier: MIT
;; Version: 0.1.0
;; Package-Requires: ((emacs "25.1"))
;; Keywords: languages

;;; Commentary:

;; Colours for CLU as this compiler reads it.  Words are the same in either
;; case, comments go from `%' to the end of the line, and no literal goes on
;; in the next line.

;;; Code:

(defconst clu-mode--words
  '((font-lock-keyword-face
     "if" "then" "elseif" "else" "tagcase" "tag"
     "for" "in" "while" "do" "break" "continue"
     "except" "when" "others" "signal" "resignal" "exit"
     "begin" "end" "return" "yield"
     "cluster" "proc" "iter" "is" "returns" "yields" "signals" "where" "has" "own" "type"
     "cand" "cor")
    (font-lock-type-face
     "null" "bool" "int" "real" "char" "string" "any" "rep" "cvt"
     "array" "sequence" "record" "struct" "oneof" "variant" "proctype" "itertype")
    (font-lock-constant-face "true" "false" "nil")
    (font-lock-builtin-face "up" "down" "force"))
  "The reserved words, by the face that they have.")

(defconst clu-mode--name "\\_<\\([a-z_][a-z0-9_]*\\)\\_>"
  "A name or a reserved word.")

(defconst clu-mode--number
  "\\(?:\\_<[0-9]+\\(?:\\.[0-9]*\\)?\\|\\.[0-9]+\\)\\(?:e[-+]?[0-9]+\\)?"
  "An integer or real literal.")

(defconst clu-mode--escape
  "\\\\\\(?:\\([ntpbrv\\\\'\"]\\|[0-7]\\{3\\}\\)\\|.\\)"
  "A backslash with what stands after it, which is group 1 of an escape.")

(defun clu-mode--match-end-name (limit)
  "Find the next name after `end' before LIMIT, as group 1.
What stands after it must not make it the first name of a statement."
  (let (found)
    (while (and (not found)
                (re-search-forward (concat "\\_<end[ \t]+" clu-mode--name) limit t))
      (setq found (not (looking-at-p "[ \t]*[:,.$([]")))
      ;; What was taken for the name may be one more `end'.
      (goto-char (match-beginning 1)))
    found))

(defun clu-mode--match-escape (limit)
  "Find the next backslash of a finished literal before LIMIT."
  (let (found)
    (while (and (not found) (re-search-forward clu-mode--escape limit t))
      (setq found (save-excursion
                    (save-match-data
                      (characterp (nth 3 (syntax-ppss (match-beginning 0))))))))
    found))

(defconst clu-mode--keywords
  `(,@(mapcar (lambda (group)
                `(,(regexp-opt (cdr group) 'symbols) . ,(car group)))
              clu-mode--words)
    (,(concat clu-mode--name "[ \t]*=[ \t]*\\(?:proc\\|iter\\)\\_>")
     1 font-lock-function-name-face)
    (,(concat clu-mode--name "[ \t]*=[ \t]*cluster\\_>")
     1 font-lock-type-face)
    (clu-mode--match-end-name 1 font-lock-variable-name-face)
    (,clu-mode--number 0 font-lock-constant-face)
    ;; A mark that closes no literal: all others have a face by now.
    ("'" 0 font-lock-warning-face)
    (clu-mode--match-escape
     0 (if (match-beginning 1) font-lock-constant-face font-lock-warning-face) t))
  "What is coloured besides comments and literals.")

;; No token goes on in the next line, so each line is read from its first
;; byte.  An unfinished string is ended by the end of its line.
(defconst clu-mode--propertize
  (syntax-propertize-rules
   ("%.*")
   ("\"\\(?:[^\"\\\\\n]\\|\\\\.\\)*\"")
   ("\\(\"\\)\\(?:[^\"\\\\\n]\\|\\\\.\\)*\\(\\\\?\\)\\(\n\\|\\'\\)" (1 "|") (2 ".") (3 "|"))
   ("\\('\\)\\(?:[]\t -&(-[^-~]\\|\\\\[NTPBRVntpbrv\\'\"]\\|\\\\[0-7]\\{3\\}\\)\\('\\)"
    (1 "\"") (2 "\""))
   ;; Outside of literals it escapes nothing.
   ("\\\\" (0 ".")))
  "The syntax of marks that depends on what stands round them.")

(defun clu-mode--face-of-literal (state)
  "The face of the comment or literal of the parser's STATE."
  (cond ((nth 4 state) font-lock-comment-face)
        ((eq (nth 3 state) t) font-lock-warning-face)
        (t font-lock-string-face)))

(defvar clu-mode-syntax-table
  (let ((table (make-syntax-table)))
    (modify-syntax-entry ?% "<" table)
    (modify-syntax-entry ?\n ">" table)
    (modify-syntax-entry ?\" "\"" table)
    (modify-syntax-entry ?\\ "\\" table)
    (modify-syntax-entry ?' "." table)
    (modify-syntax-entry ?_ "_" table)
    (dolist (mark (string-to-list "$&*+-./:;<=>|~,"))
      (modify-syntax-entry mark "." table))
    table)
  "The syntax table of `clu-mode'.")

;;;###autoload
(define-derived-mode clu-mode prog-mode "CLU"
  "Major mode for CLU programs."
  (setq-local comment-start "% ")
  (setq-local comment-start-skip "%+[ \t]*")
  (setq-local comment-end "")
  (setq-local syntax-propertize-function clu-mode--propertize)
  (setq-local font-lock-defaults
              '(clu-mode--keywords
                nil t nil
                (font-lock-syntactic-face-function . clu-mode--face-of-literal))))

;;;###autoload
(add-to-list 'auto-mode-alist '("\\.clu\\'" . clu-mode))

(provide 'clu-mode)
;;; clu-mode.el ends here
