"""What an answer of raft_node_files says; docs/SCRIPT.md has its words."""
import re

# What a tick asked for stands behind it, each thing behind "; ". No word that follows a value is one of these.
PARTS = re.compile(r"; (?=(?:elect|heartbeat|lost|snapshot|purge|clean|no quorum|refused)\b)")
ASKED = re.compile(r"(?:elect|heartbeat|lost|snapshot|purge|clean)[ 0-9]*: ")


class Answer:
    def __init__(self, text):
        self.text = text
        self.frames = []       # (addressee, bytes)
        self.told = []         # (token, place, value as text)
        self.full = []         # (token, place)
        self.unknown = []      # tokens
        self.compact = []      # groups that hold old files back
        self.refusal = None    # (number, name)
        self.leader = None     # whom a refusal names
        self.total = None      # (total, place), each as text
        self.moment = None     # that of a tick
        self.no_quorum = []    # groups that the node leads, and that have none
        self.has_failed = False    # the node takes nothing more
        for part in PARTS.split(text):
            if part.startswith("no quorum "):
                self.no_quorum.append(int(part.split(" ")[2]))
            else:
                self._read(iter(ASKED.sub("", part, count=1).split(" ")))

    def _read(self, words):
        for word in words:
            if word.startswith(">"):
                peer, data = word[1:].split(":")
                self.frames.append((int(peer), bytes.fromhex(data)))
            elif word == "told":
                at, value = next(words).split("=", 1)
                self.told.append((*map(int, at.split("@")), value))
            elif word == "full":
                self.full.append(tuple(map(int, next(words).split("@"))))
            elif word == "unknown":
                self.unknown.append(int(next(words)))
            elif word == "compact":
                self.compact.append(int(next(words)))
            elif word == "refused":
                self._refuse(words)
            elif word == "total":
                total, _, place = words
                self.total = total, place
            elif word == "tick":
                self.moment = int(next(words))
            elif word != "ok":
                raise ValueError(f"a node answers {self.text[:200]}")

    def _refuse(self, words):
        number, name = self.refusal = next(words), next(words)
        if name == "NotLeader":
            leader = next(words)
            self.leader = None if leader == "-" else int(leader)
        if name in ("Stopped", "Failed", "NodeDown") or number.startswith("S"):
            self.has_failed = True
