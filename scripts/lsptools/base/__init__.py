"""What all parts use: logs and their messages, what lspcheck writes about them, how it is run, and
how a command speaks and ends."""
