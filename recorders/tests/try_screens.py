"""Editors that run in a terminal, whose screen is read, and what they are started with."""

import os
import pty
import re
import select
import signal
import subprocess
import sys
import time
from pathlib import Path

# ALE takes the folder of a Makefile for a project's.
FILES = {
    "Makefile": "all:\n",
    "main.cpp": "int add(int a, int b) {\n  return a + b;\n}\n\nint main() { return add(1, 2); }\n",
    "sub/tool.py": "import os\n\n\ndef greet(name):\n    return name\n\n\nprint(greet(os.name))\n",
}

# Where the logs go, from the folder that the editor is started in.
LOGS = Path("logs/new")

# The line that is typed last.
LAST = "// after"

NEOVIM = """
function serve(name, command)
  local buffer = vim.api.nvim_get_current_buf()
  local id = vim.lsp.start_client({ name = name, cmd = command, root_dir = vim.fn.getcwd() })
  vim.lsp.buf_attach_client(buffer, id)
end
local function by_type(kind, name, command)
  vim.api.nvim_create_autocmd("FileType", {
    pattern = kind,
    callback = function()
      serve(name, command)
    end,
  })
end
by_type("cpp", "clangd", CLANGD)
by_type("python", "pylsp", PYLSP)
vim.o.hidden = true
"""

EGLOT = """
(package-initialize)
(setq eglot-autoshutdown nil eglot-autoreconnect nil eglot-confirm-server-initiated-edits nil
      vc-handled-backends nil)
(require 'eglot)
(add-hook 'c++-mode-hook #'eglot-ensure)
(add-hook 'python-mode-hook #'eglot-ensure)
(global-set-key (kbd "<f5>") (lambda () (interactive) (eglot-reconnect (eglot-current-server))))
"""

LSP_MODE = """
(package-initialize)
(setq lsp-auto-guess-root t lsp-enable-snippet nil lsp-restart 'ignore lsp-enable-file-watchers nil
      lsp-session-file (expand-file-name "session") lsp-keep-workspace-alive t
      lsp-warn-no-matched-clients nil lsp-diagnostics-provider :none vc-handled-backends nil)
(require 'lsp-mode)
(require 'lsp-clangd)
(require 'lsp-pylsp)
(lsp-workspace-folders-add (expand-file-name "."))
(add-hook 'c++-mode-hook #'lsp)
(add-hook 'python-mode-hook #'lsp)
(global-set-key (kbd "<f5>") #'lsp-workspace-restart)
"""

EMACS = """
(setq auto-revert-interval 1 auto-revert-verbose nil inhibit-startup-screen t use-dialog-box nil
      make-backup-files nil auto-save-default nil create-lockfiles nil
      native-comp-deferred-compilation nil)
(fset 'yes-or-no-p (lambda (&rest _) t))
"""

ALE = """
set nocompatible hidden nomore noswapfile
let g:ale_linters_explicit = 1
let g:ale_linters = {'cpp': ['clangd'], 'python': ['pylsp']}
let g:ale_lint_delay = 50
let g:ale_python_pylsp_use_global = 1
filetype plugin on
packadd! ale
source RECORDER
"""


def write_files(folder, line_end="\n"):
    for file, text in FILES.items():
        (folder / file).parent.mkdir(parents=True, exist_ok=True)
        (folder / file).write_bytes(text.replace("\n", line_end).encode())


class Screen:
    """An editor on a terminal of its own."""

    def __init__(self, command, folder, logs):
        self.seen = b""
        self.process, self.terminal = pty.fork()
        if self.process == 0:
            os.chdir(folder)
            os.environ.update(
                TERM="xterm", HOME=str(folder), LSPCHECK_LOGS=str(logs), LC_ALL="C.UTF-8"
            )
            os.execvp(command[0], command)

    def wait(self, seconds):
        """Lets the editor work, and takes what it writes to its terminal."""
        end = time.monotonic() + seconds
        while (left := end - time.monotonic()) > 0:
            if select.select([self.terminal], [], [], left)[0]:
                try:
                    seen = os.read(self.terminal, 65536)
                    self.seen += seen
                    if "SHOW_SCREEN" in os.environ:
                        sys.stderr.buffer.write(seen)
                except OSError:
                    return

    def wait_for(self, folder, logs=1):
        """Lets the editor work until this many servers have published diagnostics, as their logs
        show, but at most a minute."""
        end = time.monotonic() + 60
        while time.monotonic() < end:
            self.wait(0.5)
            texts = [path.read_bytes() for path in folder.glob("*.log")]
            if sum(b"textDocument/publishDiagnostics\"" in text for text in texts) >= logs:
                break

    def type(self, *texts, seconds=0.5):
        for text in texts:
            os.write(self.terminal, text.encode())
            self.wait(seconds)

    def save(self, keys, file):
        """Types the keys that save the last line; waits at most 20 seconds until it is saved."""
        self.type(keys, seconds=1)
        end = time.monotonic() + 20
        while LAST not in file.read_text() and time.monotonic() < end:
            self.wait(0.2)
        self.wait(2)

    def kill(self):
        os.kill(self.process, signal.SIGKILL)
        os.waitpid(self.process, 0)
        os.close(self.terminal)


def descendants(process):
    """The processes that a process started, and those that they started, with their commands."""
    words = ["ps", "-o", "pid=,args=", "--ppid", str(process)]
    for line in subprocess.run(words, capture_output=True, text=True).stdout.splitlines():
        child, command = line.split(None, 1)
        yield int(child), command
        yield from descendants(child)


def kill_servers(screen):
    for process, command in descendants(screen.process):
        if re.match(r"\S*clangd\b", command):
            os.kill(process, signal.SIGKILL)
