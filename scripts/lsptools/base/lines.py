"""The lines of a text, as LSP ends them."""

import re

# A line with its end, or the last one without.
LINE = re.compile(r"[^\r\n]*(?:\r\n|\r|\n)|[^\r\n]+$")
