;;; emacs.el --- Record eglot and lsp-mode sessions for lspcheck  -*- lexical-binding: t; -*-

;; Start Emacs with: emacs -l emacs.el FILE (or `load' it in the init file, before a server starts).
;; Each server process gets a log of its own, SERVER-TIME-PID.log, and when it has ended, a file
;; SERVER-TIME-PID.exit that says how. They go to the folder $LSPCHECK_LOGS, which is created if it
;; does not exist (default: the folder that Emacs was started in). Only their owner can read them.

(require 'subr-x)

(defvar lspcheck-folder
  (expand-file-name (or (getenv "LSPCHECK_LOGS") "") command-line-default-directory)
  "Where the logs are written.")
(with-file-modes #o700 (make-directory lspcheck-folder t))

(defvar lspcheck-alarm (not (member (getenv "LSPCHECK_ALARM") '(nil "")))
  "Whether `lspcheck explain' reads each log while it is written.
A message then shows each violation at once, and a window explains it.")

(defconst lspcheck-most 1048576 "The most bytes of one record.")

(defun lspcheck--bytes (string)
  "STRING as the bytes that a server's pipe carries."
  (if (multibyte-string-p string) (encode-coding-string string 'utf-8-emacs-unix) string))

(defun lspcheck--keep (file lines)
  "Append LINES, a list, to the buffer of the violations in FILE, a log, and return that buffer."
  (with-current-buffer (get-buffer-create
                        (format "*lspcheck: %s*" (file-name-nondirectory file)))
    (goto-char (point-max))
    (dolist (line lines)
      (insert line "\n"))
    (current-buffer)))

(defun lspcheck--lines (hear)
  "A filter that calls HEAR with the process and each line of its output, without the line end."
  (let ((rest ""))
    (lambda (process output)
      (let ((lines (split-string (concat rest output) "\n")))
        (setq rest (car (last lines)))
        (dolist (line (butlast lines))
          (funcall hear process line))))))

(defconst lspcheck--shown
  (rx string-start
      (or (seq "no " digit) "bad log "
          (seq "note " (or "past-end" "range-length" "refused") " ")))
  "How the lines begin that are shown.")

(defun lspcheck--hear (file)
  "A function that shows each violation in FILE, a log, and keeps the lines from the first one on.
It also shows the notes that say that a server may have dropped a document."
  (let ((is-told nil))
    (lambda (_process line)
      (let ((is-shown (string-match-p lspcheck--shown line)))
        (setq is-told (or is-told is-shown))
        (when is-told
          (lspcheck--keep file (list line)))
        (when is-shown
          (display-buffer (lspcheck--keep file nil))
          (message "lspcheck: %s" line))))))

(defun lspcheck--hear-line-ends (file)
  "A function that shows the first violation in FILE, a log, that concerns line ends alone."
  (let ((block nil))
    (lambda (process line)
      (setq block (cons line (unless (string-match-p "\\`no [0-9]" line) block)))
      (when (and (string-prefix-p "so " line) (process-live-p process)
                 (seq-some (lambda (said) (string-prefix-p "ends " said)) block))
        (lspcheck--keep file (reverse block))
        (message "lspcheck: %s, line ends alone" (car (last block)))
        (delete-process process)))))

(defun lspcheck--start-check (hear &rest options)
  "Start `lspcheck explain --all' with OPTIONS; HEAR gets each line of its output."
  (make-process :name "lspcheck" :command `("lspcheck" "explain" "--all" ,@options)
                :connection-type 'pipe :coding '(utf-8-unix . binary) :noquery t
                :filter (lspcheck--lines hear) :sentinel #'ignore))

(defun lspcheck--start-alarm (file)
  "Start what reads FILE, a new log, while it is written, if the user wants an alarm.
Where line ends are converted on the way, texts differ from the first snapshot on.  So one process
ignores line ends, and another is there only to say so once."
  (when (and lspcheck-alarm (executable-find "lspcheck"))
    (list (lspcheck--start-check (lspcheck--hear file) "--ignore-line-ends" "--notes")
          (lspcheck--start-check (lspcheck--hear-line-ends file)))))

(defun lspcheck--why-refused ()
  "Why no log is written into the folder, or nil.
Whoever else could replace files there could have Emacs write to any file of its user.  In a sticky
folder, such as /tmp, nobody else can."
  (let* ((folder (directory-file-name lspcheck-folder))
         (owner (file-attribute-user-id (file-attributes folder))))
    (cond ((or (null owner) (eq system-type 'windows-nt)) nil)
          ((file-symlink-p folder) "it is a symbolic link")
          ((not (memql owner (list 0 (user-uid)))) "it belongs to another user")
          ((= (logand (file-modes folder) #o1002) #o2) "others may write to it"))))

(defun lspcheck--create (name)
  "Create a log, NAME.log, and return its name; if that exists, there is a number in its name."
  (when-let ((why (lspcheck--why-refused)))
    (error "%s: %s" lspcheck-folder why))
  (let ((file nil) (number 0))
    (while (not file)
      (setq number (1+ number)
            file (expand-file-name (format (if (= number 1) "%s.log" "%s-%d.log") name number)
                                   lspcheck-folder))
      (condition-case nil
          (with-file-modes #o600 (write-region "" nil file nil 'quiet nil 'excl))
        (file-already-exists (setq file nil))))
    file))

(defconst lspcheck--before-server
  (rx string-start
      (+ (or (+ (any " \t\n"))
             (seq (opt (* (not (any " \t\n"))) "/") "env"
                  (* (+ " ") "-"
                     (or (seq (any "uC") (+ " ") (+ (not (any " ")))) (+ (not (any " ")))))
                  " ")
             (seq (opt (* (not (any " \t\n"))) "/") (opt (or "ba" "da" "k" "z")) "sh"
                  (+ " ") "-" (* alpha) "c ")
             (seq (opt (* (not (any " \t\n"))) "/") "python" (* (any "0-9.")) (+ " ")
                  (* (or (seq "-" (any "WX") (+ " ") (+ (not (any " "))) (+ " "))
                         (seq "-" (+ alnum) (+ " "))))
                  "-m ")
             (seq (or "cd" "export" "source" "." "set" "umask") " "
                  (* (not (any ";&|\n"))) (+ (any ";&|\n")))
             "exec "
             (seq (+ (any "A-Za-z0-9_")) "=" (* (not (any " "))) " "))))
  "What may come before the server in a command.
That is `env' and its options, a shell, Python that runs a module, the commands and settings before
that of the server.")

(defun lspcheck--server-name (words)
  "The name of the server that a command, a list of WORDS, starts."
  (let* ((case-fold-search nil)
         (command (replace-regexp-in-string "[\"']" "" (string-join words " ")))
         (start (if (string-match lspcheck--before-server command) (match-end 0) 0))
         (end (string-match "[ \t\n;&|]\\|\\'" command start))
         (server (substring command start end)))
    (file-name-nondirectory (if (or (= start 0) (string-empty-p server)) (car words) server))))

(defun lspcheck--begin (process)
  "Create the log of PROCESS, and start what depends on it."
  (let ((file (lspcheck--create (format "%s-%s-%d"
                                        (lspcheck--server-name (process-command process))
                                        (format-time-string "%Y%m%dT%H%M%S")
                                        (process-id process)))))
    (process-put process 'lspcheck-log file)
    (process-put process 'lspcheck-checks (lspcheck--start-alarm file))
    (add-function :before (process-sentinel process) #'lspcheck--ended)
    file))

(defun lspcheck--ended (process _event)
  "Write how PROCESS ended, if it did, to a file next to its log."
  (when-let ((how (cdr (assq (process-status process) '((exit . "status") (signal . "signal"))))))
    (unless (lspcheck--is-deleted process)
      (with-demoted-errors "lspcheck: not recorded: %S"
        (with-file-modes #o600
          (write-region (format "%s %d\ntime %s\n" how (process-exit-status process)
                                (format-time-string "%Y-%m-%dT%H:%M:%S%z"))
                        nil (concat (file-name-sans-extension (process-get process 'lspcheck-log))
                                    ".exit")
                        nil 'quiet nil 'excl))))
    (dolist (check (process-get process 'lspcheck-checks))
      (when (process-live-p check)
        (process-send-eof check)))))

(defun lspcheck--is-deleted (process)
  "Whether the log of PROCESS was deleted, which is said once.
A new file would lack the beginning of the log."
  (when-let ((file (process-get process 'lspcheck-log)))
    (unless (file-exists-p file)
      (unless (process-get process 'lspcheck-is-deleted)
        (message "lspcheck: nothing more is recorded: the log was deleted: %s" file))
      (process-put process 'lspcheck-is-deleted t))))

(defun lspcheck--write (process &rest parts)
  "Append PARTS, which consist of bytes, to the log of PROCESS."
  (unless (lspcheck--is-deleted process)
    (apply #'lspcheck--append process parts)))

(defun lspcheck--append (process &rest parts)
  "Append PARTS to the log of PROCESS, which is created if there is none."
  (let* ((coding-system-for-write 'binary) (write-region-inhibit-fsync t)
         (file (process-get process 'lspcheck-log))
         (head (if file "" "lsp-session 1\n"))
         (bytes (apply #'concat head parts)))
    (with-demoted-errors "lspcheck: not recorded: %S"
      (write-region bytes nil (or file (lspcheck--begin process)) t 'quiet)
      (dolist (check (process-get process 'lspcheck-checks))
        (when (process-live-p check)
          (ignore-errors (process-send-string check bytes)))))))

(defun lspcheck--record (process side string)
  "Record that Emacs (SIDE \"E\") or PROCESS (SIDE \"S\") wrote STRING."
  (let ((bytes (lspcheck--bytes string)) (at 0))
    (while (< at (length bytes))
      (let ((piece (substring bytes at (min (length bytes) (+ at lspcheck-most)))))
        (lspcheck--write process (format "%s %d\n" side (length piece)) piece "\n")
        (setq at (+ at (length piece)))))))

(defun lspcheck--snapshot (process uri version)
  "Record the whole text of the current buffer, with its line ends, as URI at VERSION."
  (when (and process (process-get process 'lspcheck-log))
    (let* ((dos (eq 1 (coding-system-eol-type buffer-file-coding-system)))
           (coding (if dos 'utf-8-dos 'utf-8-unix))
           (text (save-restriction
                   (widen)
                   (encode-coding-string (buffer-substring-no-properties (point-min) (point-max))
                                         coding)))
           (name (lspcheck--bytes uri)))
      (lspcheck--write process (format "T %d %d %d\n" version (length name) (length text))
                       name "\n" text "\n"))))

;; eglot: all messages go through jsonrpc.

(defun lspcheck--sending (process string)
  "Record STRING if PROCESS belongs to jsonrpc."
  (when (and (processp process) (eq (process-filter process) 'jsonrpc--process-filter))
    (lspcheck--record process "E" string)))

(defun lspcheck--filtering (process string)
  "Record STRING, which PROCESS, a server of jsonrpc, wrote."
  (lspcheck--record process "S" string))

(defun lspcheck--eglot-snapshot (&rest _)
  "Record the buffer at the version that eglot keeps for it."
  (when-let ((server (eglot-current-server)))
    (lspcheck--snapshot (jsonrpc--process server)
                        (plist-get (eglot--TextDocumentIdentifier) :uri)
                        eglot--versioned-identifier)))

(with-eval-after-load 'jsonrpc
  (advice-add 'process-send-string :before #'lspcheck--sending)
  (advice-add 'jsonrpc--process-filter :before #'lspcheck--filtering))

(with-eval-after-load 'eglot
  (dolist (sending '(eglot--signal-textDocument/didOpen eglot--signal-textDocument/didChange
                     eglot--signal-textDocument/didSave))
    (advice-add sending :after #'lspcheck--eglot-snapshot)))

;; lsp-mode: it creates the filter of a server's process, and sends all messages by one function.

(defun lspcheck--lsp-filter (make &rest arguments)
  "Call MAKE with ARGUMENTS, and return its filter, which now records its input first."
  (let ((filter (apply make arguments)))
    (lambda (process string)
      (lspcheck--record process "S" string)
      (funcall filter process string))))

(defun lspcheck--lsp-sending (message process)
  "Record MESSAGE, which lsp-mode sends to PROCESS, and a snapshot if it carries a text.
While lsp-mode sends nothing, as inside `revert-buffer', there are no snapshots."
  (lspcheck--record process "E" message)
  (when (string-match-p "\"method\":\"textDocument/did\\(Open\\|Change\\|Save\\)\""
                        (substring message 0 (min 200 (length message))))
    (lspcheck--snapshot process (lsp--buffer-uri) lsp--cur-version)))

(with-eval-after-load 'lsp-mode
  (advice-add 'lsp--create-filter-function :around #'lspcheck--lsp-filter)
  (advice-add 'lsp--send-no-wait :before #'lspcheck--lsp-sending))

(provide 'lspcheck)
;;; emacs.el ends here
