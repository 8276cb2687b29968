"""The format of log files, apart from the crates: headers and records, written and judged; and the
sections of rows that scripts write of them."""
import struct
import sys
import zlib

MAGIC = b"RAFT-LOG-FILE-HEADER-9986AB3E47F320B394C8E84916EB0ED5"

u8 = lambda n: bytes([n])
u32 = lambda n: struct.pack(">I", n)
u64 = lambda n: struct.pack(">Q", n)


# ---- what is written

def header(version, alignment=0):
    return MAGIC + u64(version) + (u64(alignment) if version == 2 else b"")


def put(group, key, value):
    return u64(group) + u8(4) + u32(len(key)) + key + u32(len(value)) + value, b"", 1


def delete(group, key):
    return u64(group) + u8(5) + u32(len(key)) + key, b"", 1


def clean(group):
    return u64(group) + u8(2), b"", 1


def compact(group, index):
    return u64(group) + u8(3) + u64(index), b"", 1


def entries(group, first, texts):
    head = u64(group) + u8(1) + u32(len(texts))
    return head + b"".join(u64(first + i) + u32(len(t)) for i, t in enumerate(texts)), b"".join(texts), 1


def record(items, signature):
    body = u32(len(items)) + b"".join(i[0] for i in items)
    block = b"".join(i[1] for i in items)
    if any(i[0][8] == 1 for i in items):
        block += u32(zlib.crc32(block))
    seal = u32(zlib.crc32(body) ^ signature)
    return u32(8 + len(block) + len(body) + 4) + u32(8 + len(block)) + block + body + seal


# ---- what is read

class Fault(Exception):
    pass


def take(text, n, fault):
    if len(text) < n:
        raise Fault(fault)
    return text[:n], text[n:]


def number(text, n, fault="ItemsCutShort"):
    front, rest = take(text, n, fault)
    return int.from_bytes(front, "big"), rest


def counted(text):
    n, rest = number(text, 4)
    return take(rest, n, "ItemsCutShort")


def key(text):
    found, rest = counted(text)
    if not found:
        raise Fault("EmptyKey")
    return found, rest


def item_at(text, at, limit):
    _, text = number(text, 8)
    tag, text = number(text, 1)
    if tag == 1:
        count, text = number(text, 4)
        if count == 0:
            raise Fault("NotConsecutive")
        first, _ = number(text, 8)
        for i in range(count):
            index, text = number(text, 8)
            size, text = number(text, 4)
            if index != first + i:
                raise Fault("NotConsecutive")
            if limit - at < size:
                raise Fault("EntriesLength")
            at += size
    elif tag == 3:
        _, text = number(text, 8)
    elif tag == 4:
        _, text = key(text)
        _, text = counted(text)
    elif tag == 5:
        _, text = key(text)
    elif tag == 6:
        _, text = number(text, 8)
        status, text = number(text, 1)
        if status > 2:
            raise Fault("BadTag")
    elif tag != 2:
        raise Fault("BadTag")
    return tag, at, text


def record_at(text, signature):
    """The length of the record at the front, where its items begin, and how many they are."""
    size, rest = number(text, 4, "CutShort")
    if size == 0:
        raise Fault("BadLength")
    offset, _ = number(rest, 4, "CutShort")
    if size < 16 or size > 1 << 25:
        raise Fault("BadLength")
    if size < offset + 8 or (offset != 8 and offset < 12):
        raise Fault("BadOffset")
    if len(text) < size:
        raise Fault("CutShort")
    body, seal = text[offset:size - 4], text[size - 4:size]
    if u32(zlib.crc32(body) ^ signature) != seal:
        raise Fault("ItemsChecksum")
    limit = max(0, offset - 12)
    count, left = number(body, 4)
    tags, at = [], 0
    for _ in range(count):
        tag, at, left = item_at(left, at, limit)
        tags.append(tag)
    if left:
        raise Fault("TrailingBytes")
    if at != limit or (offset != 8) != (1 in tags):
        raise Fault("EntriesLength")
    if offset != 8 and u32(zlib.crc32(text[8:offset - 4])) != text[offset - 4:offset]:
        raise Fault("EntriesChecksum")
    return size, offset, count


def header_of(text):
    """The version, the alignment and the header's length."""
    if len(text) < 61:
        raise Fault("CutShort")
    if text[:53] != MAGIC:
        raise Fault("NoHeader")
    version = int.from_bytes(text[53:61], "big")
    if version == 1:
        return 1, 0, 61
    if version != 2:
        raise Fault("BadVersion")
    return 2, number(text[61:], 8, "CutShort")[0], 69


def walk(text, version, alignment, seq):
    """The batches behind the header, up to where the file was read, and the fault there."""
    at, batches = 61 if version == 1 else 69, []
    signature = seq % (1 << 32) if version == 2 else 0
    while at < len(text):
        try:
            size, offset, count = record_at(text[at:], signature)
        except Fault as fault:
            gap = -at % alignment if alignment else 0
            if gap == 0 or text[at:at + gap] != bytes(gap):
                return batches, at, str(fault)
            at += gap
            continue
        batches.append((at, size, at + 8, offset - 8, count))
        at += size
    return batches, at, None


# ---- sections of rows

FOLDER = "crates/raft_log_rows"
MARK = "# ===="


def word(text):
    """Bytes as a word of a row."""
    return '"' + "".join(chr(b) if chr(b).isalnum() and b < 128 else f"\\x{b:02x}" for b in text) + '"'


def shown(text):
    """Bytes as an answer prints them."""
    named = {9: "\\t", 10: "\\n", 13: "\\r", 34: '\\"', 39: "\\'", 92: "\\\\"}
    return '"' + "".join(named.get(b, chr(b) if 32 <= b < 127 else f"\\x{b:02x}") for b in text) + '"'


def with_files(files):
    """Rows that make these files, each a name and bytes, in the directory `main` of an empty disk."""
    yield "directory main", "Ok(())"
    for number, (name, text) in enumerate(files, 1):
        yield f"make main/{name}", f"Ok(Fd({number}))"
        yield f"write {number} 0 {word(text)}", "Ok(())"
        yield f"sync {number}", "Ok(())"


def with_section(text, name, lines):
    """A text in which the section of this name, up to the next one, has these lines."""
    front, mark, rest = text.partition(f"{MARK} {name}\n")
    if not mark:
        sys.exit(f"there is no section {name}")
    _, next_mark, back = rest.partition(f"\n{MARK}")
    return front + mark + "".join(f"{it}\n" for it in lines) + next_mark + back


def settle(name, rows):
    """Writes the section of this name: rows, each a call and its answer; without one a line as it is. With --check writes nothing, and
    fails where the files are otherwise."""
    calls = [call.rstrip("# ") if answer is None and call == "# " else call for call, answer in rows]
    told = [call if answer is None else f"{call} -> {answer}" for call, (_, answer) in zip(calls, rows)]
    for path, lines in [(f"{FOLDER}/stdin", calls), (f"{FOLDER}/stdout", told)]:
        with open(path, encoding="utf-8") as file:
            text = file.read()
        wanted = with_section(text, name, lines)
        if wanted != text and "--check" in sys.argv[1:]:
            sys.exit(f"{path} is otherwise")
        if wanted != text:
            with open(path, "w", encoding="utf-8") as file:
                file.write(wanted)
    print(sum(answer is not None for _, answer in rows), "rows")
