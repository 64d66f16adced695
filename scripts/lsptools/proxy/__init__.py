"""The command proxy, which records a session. `command` passes the bytes on; `log` writes them, in
a process of its own, with the `snapshots` of saved files; `alarm` reports violations at once."""
