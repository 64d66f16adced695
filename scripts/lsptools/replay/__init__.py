"""lspcheck-replay: where a server's answers begin to differ from those of one that has the right
texts. `trial` says what is tried, and `search` finds the message."""
