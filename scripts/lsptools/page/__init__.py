"""lspcheck-page: what lspcheck writes about a log, and its events, in one HTML page. `reading`
reads a log, `document` writes its page, `in_markdown` what one pastes about it; `batch` does so for
several logs, each in a process of its own (`many`), and `folder` writes their index."""
