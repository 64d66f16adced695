"""lspcheck-replay as it is, but that it asks again after tenths of a second instead of seconds, and
waits no longer for diagnostics: the server of the tests answers at once, and sends them before."""

import runpy
import sys
from pathlib import Path

sys.dont_write_bytecode = True
REPLAY = Path(__file__).resolve().parent.parent
sys.path.insert(0, str(REPLAY.parent / "scripts"))

from lsptools.servers import questions

questions.PAUSES = (0.1, 0.2)
questions.SHORT_PAUSES = (0.05,)
questions.PUBLISHING = questions.PUBLISHING_AGAIN = 0.1
sys.argv[0] = str(REPLAY / "lspcheck-replay")
runpy.run_path(sys.argv[0], run_name="__main__")
