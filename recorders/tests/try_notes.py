"""The notes of the alarm: in Neovim, Emacs and Vim with ALE, those that say that a server may have
dropped a document are shown, each once, and kept in the buffer of the log; others are not shown. A
script plays lspcheck, and the servers only read and write.
"""

import shutil
import subprocess
from pathlib import Path

import try_needs

RECORDERS = Path(__file__).resolve().parent.parent

# The notes that the script writes, and which of them are shown.
SHOWN = [
    "note past-end 0 9 length 3 event 6 editor 5",
    'note refused -32602 "file:///a" event 9 server 2',
    "note range-length 1 length 2 fits utf-32 event 11 editor 7",
]
OTHERS = [
    'note similar "file:///A" "file:///a" event 5 editor 4',
    'note as-notification "shutdown" event 12 editor 8',
]
WRITTEN = [OTHERS[0], *SHOWN, OTHERS[1]]

PROGRAM = """#!/bin/sh
case $* in *--notes*) cat notes;; esac
exec cat > /dev/null
"""

# Each writes what it has shown to `said`, and the buffer of the log to `kept`.
NEOVIM = """
local rpc = vim.lsp.rpc.start("cat", {}, {
  notification = function() end,
  on_error = function() end,
  on_exit = function() end,
})
rpc.notify("x", {})
vim.wait(2000)
vim.fn.writefile(vim.split(vim.fn.execute("messages"), "\\n"), "said")
for _, buffer in ipairs(vim.api.nvim_list_bufs()) do
  if vim.api.nvim_buf_get_name(buffer):match("lspcheck: cat") then
    vim.fn.writefile(vim.api.nvim_buf_get_lines(buffer, 0, -1, true), "kept")
  end
end
"""

EMACS = """
(let ((process (make-process :name "server" :command '("cat") :sentinel #'ignore)))
  (lspcheck--record process "E" "x")
  (sleep-for 2))
(dolist (buffer (buffer-list))
  (when (string-prefix-p "*lspcheck: cat" (buffer-name buffer))
    (with-current-buffer buffer (write-region nil nil "kept"))))
"""

ALE = """
set nocompatible
packadd! ale
source RECORDER
let job = ale#job#Start(['cat'], {'mode': 'raw', 'out_cb': {job, text -> 0}})
call ale#job#SendRaw(job, '{}')
sleep 2000m
redir! > said
silent messages
redir END
for buffer in range(1, bufnr('$'))
  if bufname(buffer) =~# 'lspcheck: cat'
    call writefile(getbufline(buffer, 1, '$'), 'kept')
  endif
endfor
qall!
"""


def start_neovim(folder):
    (folder / "setup.lua").write_text(NEOVIM)
    words = ["nvim", "--headless", "-u", "NONE", "--cmd", f"luafile {RECORDERS}/neovim.lua"]
    return [*words, "-c", "luafile setup.lua", "-c", "qall!"]


def start_emacs(folder):
    (folder / "setup.el").write_text(EMACS)
    return ["emacs", "-Q", "--batch", "-l", f"{RECORDERS}/emacs.el", "-l", "setup.el"]


def start_ale(folder):
    (folder / "vimrc").write_text(ALE.replace("RECORDER", f"{RECORDERS}/ale/job.vim"))
    return ["vim", "-u", "vimrc", "-es"]


EDITORS = {"neovim": start_neovim, "emacs": start_emacs, "ale": start_ale}


def lines_of(path):
    return path.read_text().splitlines() if path.exists() else []


def try_notes(_program, folder):
    """For each editor, which notes it shows, and which it keeps."""
    for name, start in EDITORS.items():
        if try_needs.is_missing(name, []):
            continue
        place = folder / name
        place.mkdir()
        (place / "lspcheck").write_text(PROGRAM)
        (place / "lspcheck").chmod(0o755)
        (place / "notes").write_text("".join(f"{line}\n" for line in WRITTEN))
        setting = {"PATH": f"{place}:/usr/bin:/bin", "HOME": str(place), "LSPCHECK_LOGS": "logs"}
        how = {"capture_output": True, "stdin": subprocess.DEVNULL, "timeout": 60, "text": True}
        words = start(place)
        words[0] = shutil.which(words[0])
        run = subprocess.run(words, cwd=place, env={**setting, "LSPCHECK_ALARM": "1"}, **how)
        said = lines_of(place / "said") or run.stderr.splitlines()
        shown = [line for line in said if line.startswith("lspcheck: note ")]
        heads = [line.removeprefix("lspcheck: ").partition(" (:")[0] for line in shown]
        is_good = len(heads) == len(SHOWN) and all(map(str.startswith, SHOWN, heads))
        yield f"notes in {name}", is_good, ", ".join(heads)
        kept = [line for line in lines_of(place / "kept") if line.startswith("note ")]
        yield f"notes kept in {name}", kept == WRITTEN[1:], ", ".join(kept)


TRIALS = {"notes": try_notes}
