"""Writes the editor's messages as `clangd -lit-test` reads them."""

from lsptools.base.listing import EDITOR


def lit_of(case, lines, client):
    """The editor's messages with `---` between them, after comments that say what is wrong."""
    comments = [f"editor {client or 'without a name'}", *filter(None, lines)]
    head = "".join(f"# {it}\n" for it in comments)
    contents = [it.content[: it.length] for it in case.items if it.event.side == EDITOR]
    return head.encode() + b"\n---\n".join(contents) + b"\n"
