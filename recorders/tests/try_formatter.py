"""Neovim with clangd, recorded by the proxy, and with a formatter that Neovim doesn't know of: it
rewrites each file that was saved, before Neovim sends `didSave`, and Neovim reads it again only two
seconds later. The proxy must then take no snapshot. Without a formatter it must take one of most
saves: on a busy machine, some messages come too late. Debian: neovim, clangd and clang-format.
"""

import os
import re
import shutil
import subprocess
from pathlib import Path

RECORDERS = Path(__file__).resolve().parent.parent

SAVES, LEAST = 20, 15

# Every other change is sent before the file is written, and the rest after that.
SESSION = """
FORMATTER
vim.o.autoread = true
local id = vim.lsp.start_client({ name = "clangd", cmd = COMMAND, root_dir = vim.fn.getcwd() })
vim.lsp.buf_attach_client(0, id)
vim.wait(3000)
for number = 1, SAVES do
  vim.api.nvim_buf_set_lines(0, -1, -1, true, { ("int  x%d   ;"):format(number) })
  vim.wait(number % 2 * 500)
  vim.cmd("silent write")
  vim.wait(2000)
  vim.cmd("silent checktime")
end
vim.lsp.stop_client(id)
vim.wait(1000)
"""

FORMATTER = "vim.cmd([[autocmd BufWritePost * call system('clang-format -i main.cpp')]])"

NEEDED = ["nvim", "clangd", "clang-format"]


def session(program, folder, formatter):
    """How many snapshots a session of Neovim has, and how many of them differ from their text."""
    folder.mkdir()
    (folder / "main.cpp").write_text("int main() { return 0; }\n")
    command = f'{{ "{RECORDERS}/proxy", "{folder}/logs", "clangd" }}'
    lines = SESSION.replace("COMMAND", command).replace("SAVES", str(SAVES))
    (folder / "session.lua").write_text(lines.replace("FORMATTER", formatter))
    words = ["nvim", "--headless", "-u", "NONE", "-n", "main.cpp", "-c", "luafile session.lua"]
    how = {"env": {**os.environ, "HOME": str(folder)}, "capture_output": True}
    subprocess.run([*words, "-c", "qall!"], cwd=folder, timeout=30 + 5 * SAVES, **how)
    log, = (folder / "logs").glob("*.log")
    shown = subprocess.run([program, "show", "--all", log], capture_output=True, text=True).stdout
    found = re.findall(r"^(\d+|no 702) snapshot ", shown, re.M)
    return len(found), found.count("no 702")


def try_formatter(program, folder):
    """Whether the proxy takes the snapshots that it should, and what was found."""
    missing = [name for name in NEEDED if shutil.which(name) is None]
    if missing:
        print(f"formatter: left out: {', '.join(missing)} not installed")
        return
    for name, formatter, wanted in (("a", FORMATTER, {0}), ("no", "", range(LEAST, SAVES + 1))):
        taken, wrong = session(program, folder / name, formatter)
        shown = f"{SAVES} saves, {taken} snapshots, {wrong} of them wrong"
        yield f"{name} formatter", taken in wanted and wrong == 0, shown


TRIALS = {"formatter": try_formatter}
