"""What recorders/try needs to run an editor: programs, and plug-ins of the editor. The editors
don't read the user's own settings, so what is installed for one user only doesn't count.
"""

import os
import shutil
import subprocess

# The programs of each editor, and the plug-in of it, with its Debian package.
NEEDED = {
    "neovim": (["nvim"], None, None),
    "eglot": (["emacs"], "eglot", "elpa-eglot"),
    "lsp-mode": (["emacs"], "lsp-mode", "elpa-lsp-mode"),
    "ale": (["vim"], "ale", "vim-ale"),
    "proxy": (["nvim"], None, None),
    "emacs": (["emacs"], None, None),
}
SERVERS = ["clangd", "pylsp"]

# How each program looks for a plug-in: status 0 if it is there.
ASKS = {
    "emacs": [
        *["emacs", "-q", "--batch", "--eval", "(package-initialize)"],
        *["--eval", '(kill-emacs (if (locate-library "PLUGIN") 0 1))'],
    ],
    "vim": [
        *["vim", "-u", "NONE", "-N", "-es", "-c", "packadd PLUGIN"],
        *["-c", "if empty(globpath(&rtp, 'autoload/PLUGIN.vim')) | cquit | endif", "-c", "qall!"],
    ],
}


def has_plugin(program, plugin):
    words = [word.replace("PLUGIN", plugin) for word in ASKS[program]]
    how = {"stdin": subprocess.DEVNULL, "capture_output": True, "timeout": 60}
    setting = {**os.environ, "HOME": "/nonexistent", "TERM": "xterm"}
    return subprocess.run(words, env=setting, **how).returncode == 0


def is_missing(name, servers=SERVERS):
    """Whether something is missing for an editor; then a line says what."""
    programs, plugin, package = NEEDED[name]
    missing = [it for it in [*programs, *servers] if shutil.which(it) is None]
    if missing:
        print(f"{name}: left out: {', '.join(missing)} not installed")
    elif plugin and not has_plugin(programs[0], plugin):
        print(f"{name}: left out: {programs[0]} has no {plugin} (Debian: {package})")
    else:
        return False
    return True
