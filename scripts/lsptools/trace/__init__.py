"""The command from-trace, which makes a log of a trace that an editor or a server has written."""
