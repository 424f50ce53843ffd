"""The version of the programs, the sources of a built program, and whether it was built from the present code."""
import hashlib
import os
import pathlib

TOP = pathlib.Path(__file__).resolve().parents[2]
CRATES = TOP / "crates"
KINDS = (".rt", ".antt")


def version() -> str:
    """The version of the programs, which the file VERSION has alone. The programs have it in their code, where
    scripts/dev/check-facts compares it with the file."""
    return (TOP / "VERSION").read_text().strip()


def code() -> list[str]:
    """The code's files: those of the crates without out/, and what lists the crates. The last is crates.txt."""
    found: list[str] = []
    for folder, inner, names in os.walk(CRATES):
        inner[:] = [name for name in inner if name != "out"]
        found += [os.path.join(folder, name) for name in names if name.endswith(KINDS)]
    return [*sorted(found), str(TOP / "crates.txt")]


def sources() -> str:
    """The names, sizes and times of the code's files, so that a changed, a new and a deleted file are seen at once."""
    lines = []
    for file in code():
        seen = os.stat(file)
        lines.append(f"{os.path.relpath(file, TOP)} {seen.st_size} {seen.st_mtime_ns}\n")
    return "".join(lines)


def contents() -> str:
    """The names of the code's files with the digests of their contents, which copying, unpacking and touching leave
    alone."""
    lines = []
    for file in code():
        digest = hashlib.sha256(pathlib.Path(file).read_bytes()).hexdigest()
        lines.append(f"{digest}  {os.path.relpath(file, TOP)}\n")
    return "".join(lines)


def place(name: str) -> pathlib.Path:
    """Where the program of this name lies."""
    return CRATES / name / "out" / name


def is_built(name: str) -> bool:
    """Whether the program of this name is built of the code as it is. Where times are others and contents aren't, the
    times are noted, where that may be, so that the next start is as quick as the others."""
    program = place(name)
    if not os.access(program, os.X_OK):
        return False
    now = sources()
    if text_of(program.with_suffix(".sources")) == now:
        return True
    if text_of(program.with_suffix(".contents")) != contents():
        return False
    try:
        program.with_suffix(".sources").write_text(now)
    except OSError:
        pass  # it isn't this user's
    return True


def note(name: str, built_of: str) -> None:
    """Notes the contents that the program of this name was built of."""
    place(name).with_suffix(".sources").unlink(missing_ok=True)
    place(name).with_suffix(".contents").write_text(built_of)


def text_of(file: pathlib.Path) -> str | None:
    """What a file says, `None` if it isn't there."""
    try:
        return file.read_text()
    except OSError:
        return None
