"""Scripts in files of sections: a line `== NAME` begins each, and behind its lines or its answers the next
one begins."""

import re


def read(path):
    """The file's lines, each of which ends at a newline."""
    return path.read_text(encoding="utf-8").split("\n")[:-1]


def text_of(lines):
    """The lines as text."""
    return "".join(f"{line}\n" for line in lines)


def sections(lines):
    """Each section's name, with its lines. What comes before the first isn't among them."""
    found = []
    for line in lines:
        if line.startswith("== "):
            found.append((line[3:], []))
        elif found:
            found[-1][1].append(line)
    return found


def spread(lines):
    """The lines that these stand for: `each 1 1000 LINE` stands for a thousand, with each number from 1
    on in place of `%`."""
    for line in lines:
        verb, *words = line.split(" ", 3)
        if verb == "each":
            for number in range(int(words[0]), int(words[1]) + 1):
                yield words[2].replace("%", str(number), 1)
        else:
            yield line


def shortened(answer):
    """The answer without the first token that it tells, and its words behind the eighth counted."""
    words = re.sub(r" told \d+@", " told @", answer, count=1).split(" ")
    return " ".join(words[:8]) + (f" and {len(words) - 8} words more" if len(words) > 8 else "")


def counted(answers):
    """Each answer once, shortened, with how often it came, by rising text."""
    texts = [shortened(it) for it in answers]
    return [f"{texts.count(it)} times {it}" for it in sorted(set(texts))]
