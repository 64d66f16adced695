"""lspcheck-fuzz as it is, but that it asks fresh servers again after tenths of a second: the server of
the tests answers at once. The variable LIMIT has the seconds that it may take to cut a drift down, and
to explain it."""

import os
import runpy
import sys
from pathlib import Path

sys.dont_write_bytecode = True
FUZZ = Path(__file__).resolve().parent.parent
sys.path.insert(0, str(FUZZ.parent / "scripts"))

from lsptools.fuzz import confirming, hunt
from lsptools.servers import questions

confirming.PAUSES = (0.1, 0.2)
questions.SHORT_PAUSES = (0.05,)
hunt.CUTTING = hunt.EXPLAINING = float(os.environ.get("LIMIT", hunt.CUTTING))
sys.argv[0] = str(FUZZ / "lspcheck-fuzz")
runpy.run_path(sys.argv[0], run_name="__main__")
