"""What goes over the sockets: messages, of peers and clients alike.

A message is four bytes, the greatest first, that count what follows; a letter; and a body:
- F: a frame of a peer, as docs/FORMAT.md lays it out. Nothing answers it.
- A: a client asks, in UTF-8: `put KEY VALUE`, `get KEY`, `drop KEY` or `status`. It waits for the answer with the next.
- T: what it is told, in UTF-8: `told PLACE VALUE`, `full PLACE`, `unknown`, `refused ..` as the node says it,
  `refused no quorum`, `refused no command`, or the words of a status.
"""
import re

FRAME, ASK, TELL = b"F", b"A", b"T"
LOOPBACK = "127.0.0.1"     # nobody says who they are, so the sockets are for this machine
# The program answers no other line with these words.
COMMAND = re.compile(rb"put [^ \n]{1,255} (?!-\Z)[^ \n]{1,199}|(?:get|drop) [^ \n]{1,255}")


def message(letter, body):
    return (1 + len(body)).to_bytes(4, "big") + letter + body
