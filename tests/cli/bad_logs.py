"""Damaged logs, and what is not a log, each with what must be said about it."""

# Logs with a fault, by their bytes after the first line, and what is reported about them.
BAD_LOGS = {
    b"E 0\n": b"bad log L3 record 1\nsize out of range\n",
    b"E 1048577\n": b"bad log L3 record 1\nsize out of range\n",
    b"T -0 1 0\n": b"bad log L2 record 1\nbad record line\n",
    b"X\n": b"bad log L2 record 1\nbad record line\n",
    b"X": b"bad log L4 record 1\nrecord cut short or its line end missing\n",
    b"E 2\nab": b"bad log L4 record 1\nrecord cut short or its line end missing\n",
    b"T 1 1 1\na\n\xff\n": b"bad log L5 record 1\nsnapshot is not UTF-8\n",
}

# The lines at the places of these faults, as JSON text.
BAD_LINES = {
    b"E 0\n": rb'"E 0\n"',
    b"E 1048577\n": rb'"E 1048577\n"',
    b"T -0 1 0\n": rb'"T -0 1 0\n"',
    b"X\n": rb'"X\n"',
    b"X": b'"X"',
    b"E 2\nab": rb'"E 2\n"',
    b"T 1 1 1\na\n\xff\n": rb'"T 1 1 1\n"',
}

BAD_FIRST_LINE = b"bad log L1 record 0\nbad first line\n"

# What does not begin as a log does, and a word of the hint that must be given.
NO_LOGS = {
    b"": b"is empty",
    b"Content-Length: 2\r\n\r\n{}": b"lspcheck frames",
    b"lsp-session 1\r\nE 1\r\n": b"CR LF",
    b"lsp-session 2\r\nE 1\r\n": b"CR LF",
    b"\xef\xbb\xbflsp-session 1\n": b"byte order mark",
    b"\x1f\x8b\x08\x00\x00\x00\x00\x00": b"compressed",
    b"\x28\xb5\x2f\xfd\x00": b"compressed",
    b"lsp-session 9\n": b"format",
    b"hello\n": b"docs/LOG_FORMAT.md",
    b"[hello] - \n": b"docs/LOG_FORMAT.md",
    b"[Trace - 11:35:00 AM] Sending request 'initialize - (1)'.\n": b"from-trace",
    b"[Info  - 9:29:41 AM] The server starts.\n": b"from-trace",
    b'[LSP   - 9:29:42 AM] {"isLSPMessage":true}\n': b"from-trace",
    b'{"isLSPMessage":true}\n': b"from-trace",
    b"I[11:34:09.136] Debian clangd version 14.0.6\n": b"from-trace",
    b"2024-05-02T10:11:12.345 helix_view::editor [ERROR] x\n": b"from-trace",
    b"2024-05-02 10:11:12.345 [info] x\n": b"from-trace",
    b"\n// Send:\n{}\n": b"from-trace",
    b"// Send:\n{}\n": b"from-trace",
}

# How they begin, as JSON text: at most the 14 bytes that a first line has, up to a line end, as far as they are UTF-8.
NO_LOG_LINES = {
    b"": b'""',
    b"Content-Length: 2\r\n\r\n{}": b'"Content-Length"',
    b"lsp-session 1\r\nE 1\r\n": rb'"lsp-session 1\r"',
    b"lsp-session 2\r\nE 1\r\n": rb'"lsp-session 2\r"',
    b"\xef\xbb\xbflsp-session 1\n": b'"\xef\xbb\xbflsp-session"',
    b"\x1f\x8b\x08\x00\x00\x00\x00\x00": rb'"\u001f"',
    b"\x28\xb5\x2f\xfd\x00": b'"("',
    b"lsp-session 9\n": rb'"lsp-session 9\n"',
    b"hello\n": rb'"hello\n"',
    b"[hello] - \n": rb'"[hello] - \n"',
    b"[Trace - 11:35:00 AM] Sending request 'initialize - (1)'.\n": b'"[Trace - 11:35"',
    b"[Info  - 9:29:41 AM] The server starts.\n": b'"[Info  - 9:29:"',
    b'[LSP   - 9:29:42 AM] {"isLSPMessage":true}\n': b'"[LSP   - 9:29:"',
    b'{"isLSPMessage":true}\n': rb'"{\"isLSPMessage"',
    b"I[11:34:09.136] Debian clangd version 14.0.6\n": b'"I[11:34:09.136"',
    b"2024-05-02T10:11:12.345 helix_view::editor [ERROR] x\n": b'"2024-05-02T10:"',
    b"2024-05-02 10:11:12.345 [info] x\n": b'"2024-05-02 10:"',
    b"\n// Send:\n{}\n": rb'"\n"',
    b"// Send:\n{}\n": rb'"// Send:\n"',
}
