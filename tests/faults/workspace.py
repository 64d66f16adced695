"""A workspace with copies of the crates and one more crate. The files of that crate are kept with
the extension `.rattle`, since the gate takes each `.rt` file for a part of a crate that it proves.
"""

import shutil
from pathlib import Path

TOP = Path(__file__).resolve().parent.parent.parent


def crates():
    """For each crate of crates.txt, the crates that it depends on."""
    return dict(line.split(": ") for line in (TOP / "crates.txt").read_text().splitlines() if ": " in line)


def below(crate):
    """The same for one crate and the crates below it."""
    uses, found = crates(), [crate]
    for name in found:
        found += [other for other in uses[name].split() if other in uses and other not in found]
    return {name: uses[name] for name in found}


def lay_out(folder, copied, name, stands_on, files, left_out):
    """Copies these crates, without what is to be left out of them; makes a crate of these files,
    and returns its folder."""
    for other in copied:
        copy = folder / "crates" / other
        shutil.rmtree(copy, ignore_errors=True)
        shutil.copytree(TOP / "crates" / other, copy, ignore=shutil.ignore_patterns(*left_out))
    shutil.copy(TOP / "HANDLES", folder)
    lines = {**copied, name: stands_on}
    (folder / "crates.txt").write_text("".join(f"{crate}: {uses}\n" for crate, uses in lines.items()))
    source = folder / "crates" / name / "src"
    shutil.rmtree(source, ignore_errors=True)
    source.mkdir(parents=True)
    for file in files:
        shutil.copy(file, source / f"{file.stem}.rt")
    return source.parent
