"""Servers that are run again and asked, for replay and fuzz. `server` is one process, and `drive`
says what it is sent; `questions` has what it is asked, and `comparison` whether it answers as a
fresh one does."""
