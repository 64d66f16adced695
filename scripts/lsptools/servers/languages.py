"""How languages declare a name on a line of its own."""

from dataclasses import dataclass


@dataclass(frozen=True)
class Form:
    """A declaration: what precedes and follows the name, and what the first and the last line of a
    document need."""

    before: str = ""
    after: str = ""
    first: str = ""
    last: str = ""


# The range of a function that is not closed ends where the text does, so it shows what follows.
INT = Form("int ", ";", last=" void q() {\n")
VAR = Form("var ", ";")
VALUE = Form("", " = 0")
LET = Form("let ", " = 0")
CLASS = Form("class ", " {}")

# By the names that LSP 3.17 and editors give languages.
FORMS = {
    **dict.fromkeys("c cpp c++ cuda cuda-cpp d objc objcpp objective-c objective-cpp".split(), INT),
    **dict.fromkeys("groovy java csharp hack".split(), CLASS),
    **dict.fromkeys("elm haskell julia nix python toml".split(), VALUE),
    **dict.fromkeys("javascript javascriptreact typescript typescriptreact".split(), VAR),
    **dict.fromkeys("fsharp ocaml reason rescript vim".split(), LET),
    **dict.fromkeys("dart kotlin nim swift".split(), Form("var ", " = 0;")),
    **dict.fromkeys("css less scss sass".split(), Form(".", " {}")),
    **dict.fromkeys("bash sh shellscript zsh".split(), Form("", "() { :; }")),
    **dict.fromkeys("clojure lisp scheme".split(), Form("(def ", " 0)")),
    **dict.fromkeys("json jsonc".split(), Form('"', '": 0,', "{", '"q": 0}')),
    **dict.fromkeys("fortran fortran90 fortran95 FortranFreeForm".split(),
                    Form("subroutine ", "; end")),
    **dict.fromkeys("html vue svelte".split(), Form('<p id="', '"></p>')),
    **dict.fromkeys("latex plaintex tex".split(), Form("\\section{", "}")),
    **dict.fromkeys("perl perl6 raku".split(), Form("sub ", " {}")),
    "elixir": Form("def ", ", do: 0"),
    "erlang": Form("", "() -> ok."),
    "go": Form("var ", " int", "package q; "),
    "lua": Form("function ", "() end"),
    "makefile": Form("", ":"),
    "markdown": Form("# "),
    "php": Form("function ", "() {}", "<?php "),
    "r": Form("", " <- 0"),
    "ruby": Form("def ", "; end"),
    "rust": Form("static ", ": u8 = 0;"),
    "scala": Form("class "),
    "sql": Form("create table ", " (a int);"),
    "xml": Form("<", "/>", "<q>", "</q>"),
    "yaml": Form("", ": 0"),
    "zig": Form("const ", " = 0;"),
}
# What is tried with a server whose language is not in the table.
TRIED = tuple(dict.fromkeys(FORMS.values()))
# What a text holds that is nothing but words.
PLAIN = Form()


def forms_of(language):
    """The forms to try in a document of a language, the likeliest first."""
    known = FORMS.get(language) if isinstance(language, str) else None
    return (known,) if known else TRIED
