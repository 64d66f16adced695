"""What the proxy says on standard error."""

from lsptools.base.feeds import write_all


def say(text):
    """Says something on standard error, if anyone still reads it."""
    try:
        write_all(2, f"proxy: {text}\n".encode(errors="surrogateescape"))
    except OSError:
        pass
