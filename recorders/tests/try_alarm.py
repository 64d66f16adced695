"""A change that gets lost, or is damaged, in each editor: its alarm says so within two seconds."""

import os
import re
import shutil
import time
from pathlib import Path

import try_needs
from try_screens import ALE, EGLOT, EMACS, LOGS, LSP_MODE, NEOVIM, Screen, kill_servers, write_files

RECORDERS = Path(__file__).resolve().parent.parent

# A fault for each editor: the second change is lost, or an `e` of its text is damaged.
LOSES = """
local start_client = vim.lsp.start_client
vim.lsp.start_client = function(config)
  config.on_init = function(client)
    local notify, changes = client.notify, 0
    client.notify = function(method, ...)
      changes = changes + (method == "textDocument/didChange" and 1 or 0)
      return changes == 2 and method == "textDocument/didChange" or notify(method, ...)
    end
  end
  return start_client(config)
end
"""

EGLOT_LOSES = """
(defvar changes 0)
(advice-add 'jsonrpc-notify :before-while
            (lambda (_ method &rest _)
              (not (and (eq method :textDocument/didChange) (= 2 (setq changes (1+ changes)))))))
"""

ALE_DAMAGES = """
let s:SendRaw = funcref('ale#job#SendRaw')
function! ale#job#SendRaw(job_id, string) abort
  call s:SendRaw(a:job_id, substitute(a:string, 'second', 's3cond', ''))
endfunction
"""


LSP_MODE_LOSES = """
(defvar changes 0)
(advice-add 'lsp-notify :before-while
            (lambda (method &rest _)
              (not (and (equal method "textDocument/didChange")
                        (= 2 (setq changes (1+ changes)))))))
"""


def start_neovim(folder, loses=False):
    text = NEOVIM.replace("CLANGD", '{ "clangd" }').replace("PYLSP", '{ "pylsp" }')
    (folder / "setup.lua").write_text(LOSES * loses + text)
    words = ["nvim", "-u", "NONE", "-n", "--cmd", f"luafile {RECORDERS}/neovim.lua"]
    return [*words, "--cmd", "luafile setup.lua", "--cmd", "filetype on", "main.cpp"]


def start_emacs(folder, setup):
    (folder / "setup.el").write_text(EMACS + setup)
    return ["emacs", "-nw", "-q", "-l", f"{RECORDERS}/emacs.el", "-l", "setup.el", "main.cpp"]


def start_eglot(folder, loses=False):
    return start_emacs(folder, EGLOT + EGLOT_LOSES * loses)


def start_lsp_mode(folder, loses=False):
    return start_emacs(folder, LSP_MODE + LSP_MODE_LOSES * loses)


def start_ale(folder, loses=False):
    (folder / "ale").mkdir(exist_ok=True)
    (folder / "ale/job.vim").write_text(ALE_DAMAGES)
    damages = f"source {folder}/ale/job.vim\n" * loses
    (folder / "vimrc").write_text(ALE.replace("RECORDER", f"{RECORDERS}/ale/job.vim") + damages)
    return ["vim", "-u", "vimrc", "main.cpp"]


VI_CHANGES = ["ggOint first;\x1b", "ggOint second;\x1b", "ggOint third;\x1b"]
EMACS_CHANGES = ["\x1b<// first\r", "\x1b<// second\r", "\x1b<// third\r"]

# What lists the buffers.
VI_LISTING, EMACS_LISTING = ":ls\r", "\x18\x02"

# How each editor is started, what is typed, and whether it sends LF for CR LF.
STARTS = {
    "neovim": (start_neovim, VI_CHANGES, VI_LISTING, False),
    "eglot": (start_eglot, EMACS_CHANGES, EMACS_LISTING, True),
    "lsp-mode": (start_lsp_mode, EMACS_CHANGES, EMACS_LISTING, True),
    "ale": (start_ale, VI_CHANGES, VI_LISTING, True),
}


def starts():
    """Those of the editors that are installed."""
    for name, rest in STARTS.items():
        if not try_needs.is_missing(name):
            yield name, *rest


TOLD = re.compile(rb"no 7\d\d \w+ \d+ event \d+(?!\d|, line ends alone)")
TOLD_LINE_ENDS = re.compile(rb"lspcheck: no \d+ \w+ \d+ event \d+, line ends alone")
WAITS = b"Press ENTER"
BUFFER = b"lspcheck: clang"


def alarm(program, folder, words, changes, listing):
    """The seconds from the change that reveals a fault to the alarm, if it comes within two; how
    often it was about line ends alone; whether it came before the fault, or the editor waits for a
    key; and whether, when the server has ended, there is a buffer with explanations."""
    search = f"PATH={program.parent}:{os.environ['PATH']}"
    logs = folder / LOGS
    shutil.rmtree(logs, ignore_errors=True)
    screen = Screen(["env", "LSPCHECK_ALARM=1", search, *words], folder, logs)
    screen.wait_for(logs)
    screen.wait(1)
    is_early = TOLD.search(screen.seen) is not None
    *before, last = changes
    screen.type(*before[:1], seconds=1.5)
    # The second change has the fault. If the editor sends it as several messages, these reveal it;
    # otherwise the next change does, unless a slow editor sent the two together.
    for texts, wait in ((before[1:], 0.7), ([last], 0.1), ([last], 0.1)):
        begun = time.monotonic()
        screen.type(*texts, seconds=wait)
        while (seconds := time.monotonic() - begun) < 2 and not TOLD.search(screen.seen):
            screen.wait(0.05)
        if TOLD.search(screen.seen):
            break
    screen.wait(0.5)
    is_wrong = is_early or WAITS in screen.seen
    kill_servers(screen)
    screen.wait(1)
    screen.type(listing, seconds=1)
    screen.kill()
    of_line_ends = len(set(TOLD_LINE_ENDS.findall(screen.seen)))
    is_told = TOLD.search(screen.seen) is not None
    return seconds if is_told else None, of_line_ends, is_wrong, BUFFER in screen.seen


def try_alarm(program, folder):
    """For each editor, whether it shows the alarms that it should and no other, and what it
    showed."""
    for name, start, changes, listing, converts in starts():
        for what, loses, line_end, wanted in [
            ("a fault", True, "\n", (True, 0)),
            ("no fault", False, "\n", (False, 0)),
            ("a fault and CR LF", True, "\r\n", (True, int(converts))),
        ]:
            write_files(folder, line_end)
            words = start(folder, loses)
            found = alarm(program, folder, words, changes, listing)
            seconds, of_line_ends, is_wrong, is_kept = found
            is_good = (seconds is not None, of_line_ends) == wanted and not is_wrong
            is_good = is_good and is_kept == loses
            shown = "no alarm" if seconds is None else f"an alarm after {seconds:.2f} s"
            shown += f", {of_line_ends} about line ends" + ", early or waiting for a key" * is_wrong
            shown += ", explained" * is_kept
            yield f"alarm in {name} with {what}", is_good, shown
