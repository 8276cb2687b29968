"""Sections of rows that scripts write: each begins with a line of its name, and ends before the next one."""
import sys

MARK = "# ===="


def with_section(text, name, lines):
    """A text in which the section of this name has these lines."""
    front, mark, rest = text.partition(f"{MARK} {name}\n")
    if not mark:
        sys.exit(f"there is no section {name}")
    _, next_mark, back = rest.partition(f"\n{MARK}")
    return front + mark + "".join(f"{it}\n" for it in lines) + next_mark + back


def settle(crate, name, rows):
    """Writes a section of a program's `stdin` and `stdout`: rows, each a call and its answer, or a comment without
    one. With --check writes nothing, and fails where the files are otherwise."""
    told = [call if answer is None else f"{call} -> {answer}" for call, answer in rows]
    for file, lines in ("stdin", [call for call, _ in rows]), ("stdout", told):
        path = f"crates/{crate}/{file}"
        with open(path, encoding="utf-8") as kept:
            text = kept.read()
        wanted = with_section(text, name, lines)
        if wanted != text and "--check" in sys.argv[1:]:
            sys.exit(f"{path} isn't what {sys.argv[0]} writes")
        if wanted != text:
            with open(path, "w", encoding="utf-8") as kept:
                kept.write(wanted)
    print(f"crates/{crate}: {sum(answer is not None for _, answer in rows)} rows of {name}")
