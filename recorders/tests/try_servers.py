"""Commands that start a server by `env`, a shell or Python: in Neovim, Emacs and Vim with ALE, the
log has the server's name. A log that is deleted while the session runs is not created again, since
it would lack its beginning, and the editor says so. The servers only read and write.
"""

import json
import shutil
import subprocess
import sys
from pathlib import Path

import try_needs

RECORDERS = Path(__file__).resolve().parent.parent

# Commands, and the server that each starts.
COMMANDS = [
    (["cat"], "cat"),
    (["/bin/cat"], "cat"),
    (["env", "cat"], "cat"),
    (["env", "-u", "LANG", "A=1", "cat"], "cat"),
    (["sh", "-c", "exec cat"], "cat"),
    (["/bin/sh", "-c", "cd / && A='1' /bin/cat | cat"], "cat"),
    (["env", "A=1", "sh", "-c", "cat; true"], "cat"),
    (["PYTHON", "-m", "json.tool"], "json.tool"),
    (["sh", "-c", "exec 'PYTHON' -u -X utf8 -m json.tool"], "json.tool"),
    (["sh", "-c", ""], "sh"),
]

NEOVIM = """
for number, command in ipairs(vim.fn.json_decode(COMMANDS)) do
  vim.lsp.rpc.start(command[1], vim.list_slice(command, 2), {
    notification = function() end,
    on_error = function() end,
    on_exit = function() end,
  })
  vim.wait(1100)
end
local rpc = vim.lsp.rpc.start("tee", {}, {})
os.execute("rm logs/tee-*.log")
rpc.notify("x", {})
vim.wait(500)
"""

EMACS = """
(dolist (command (append (json-read-from-string COMMANDS) nil))
  (let ((process (make-process :name "server" :command (append command nil) :sentinel #'ignore)))
    (lspcheck--record process "E" "x")
    (sleep-for 1.1)))
(let ((process (make-process :name "server" :command '("tee") :sentinel #'ignore)))
  (lspcheck--record process "E" "x")
  (call-process "sh" nil nil nil "-c" "rm logs/tee-*.log")
  (lspcheck--record process "E" "x"))
"""

ALE = """
set nocompatible
packadd! ale
source RECORDER
let options = {'mode': 'raw', 'out_cb': {job, text -> 0}}
for command in json_decode(COMMANDS)
  call ale#job#Start(command, options)
  sleep 1100m
endfor
let job = ale#job#Start(['tee'], options)
call system('rm logs/tee-*.log')
redir! > said
call ale#job#SendRaw(job, '{}')
redir END
qall!
"""


def start_neovim(folder, commands):
    (folder / "setup.lua").write_text(NEOVIM.replace("COMMANDS", commands))
    words = ["nvim", "--headless", "-u", "NONE", "--cmd", f"luafile {RECORDERS}/neovim.lua"]
    return [*words, "-c", "luafile setup.lua", "-c", "qall!"]


def start_emacs(folder, commands):
    (folder / "setup.el").write_text(EMACS.replace("COMMANDS", commands))
    return ["emacs", "-Q", "--batch", "-l", "json", "-l", f"{RECORDERS}/emacs.el", "-l", "setup.el"]


def start_ale(folder, commands):
    text = ALE.replace("RECORDER", f"{RECORDERS}/ale/job.vim").replace("COMMANDS", commands)
    (folder / "vimrc").write_text(text)
    return ["vim", "-u", "vimrc", "-es"]


EDITORS = {"neovim": start_neovim, "emacs": start_emacs, "ale": start_ale}


def try_servers(_program, folder):
    """For each editor, the servers that its logs are named after, and what it says about a log
    that was deleted."""
    commands = [[word.replace("PYTHON", sys.executable) for word in words] for words, _ in COMMANDS]
    quoted = json.dumps(json.dumps(commands))
    for name, start in EDITORS.items():
        if try_needs.is_missing(name, []):
            continue
        place = folder / name
        place.mkdir()
        setting = {"PATH": "/usr/bin:/bin", "HOME": str(place), "LSPCHECK_LOGS": "logs"}
        how = {"capture_output": True, "stdin": subprocess.DEVNULL, "timeout": 60, "env": setting}
        words = start(place, quoted)
        words[0] = shutil.which(words[0])
        run = subprocess.run(words, cwd=place, **how)
        logs = sorted((place / "logs").glob("*.log"), key=lambda log: log.stat().st_mtime_ns)
        found = [log.name.split("-")[0] for log in logs]
        wanted = [server for _, server in COMMANDS]
        yield f"servers of {name}", found == wanted, ", ".join(found)
        said = run.stdout + run.stderr
        said += (place / "said").read_bytes() if (place / "said").exists() else b""
        yield f"a deleted log in {name}", said.count(b"the log was deleted") == 1, said[-300:]


TRIALS = {"servers": try_servers}
