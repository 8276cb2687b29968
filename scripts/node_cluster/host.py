"""A node's host: its process, its socket and the ticks that pass for it, in one thread."""
import asyncio
import contextlib
import threading
import time

from .answers import Answer
from .frames import read_frame
from .messages import ASK, COMMAND, FRAME, LOOPBACK, TELL, message
from .process import NodeProcess

GROUP = 7
# A line has 65,536 bytes at most, and a byte of a frame takes two.
PIECE = 32000
TICK = 0.001           # seconds: the usual settings of clocks take a millisecond
ROUND = 0.005          # seconds between two rounds of ticks
MOST_TICKS = 20        # of a round, so that frames come between: by what a host is later, its node's clock is slow


class Host(threading.Thread):
    """One life of a node: it ends with the node's process. `ports` are those of all nodes, by their ids."""

    def __init__(self, program, directory, node, ports):
        super().__init__(daemon=True)
        self.node, self.ports = node, ports
        self.peers = [peer for peer in ports if peer != node]
        self.why = "killed"
        self.is_open = threading.Event()       # the opening was answered, or refused
        self.asked = {}                        # token: a client's future
        self.has_no_quorum = False             # as the last tick told
        self.process = NodeProcess(program, f"{directory}/{node}", node, ["kv"])
        self.start()
        self.is_open.wait()

    def kill(self):
        self.process.life.kill()
        self.join()

    def run(self):
        try:
            asyncio.run(self.live())
        except OSError as why:
            self.why = str(why) or self.why
        self.process.kill()
        self.is_open.set()

    async def live(self):
        self.frames = {peer: asyncio.Queue() for peer in self.peers}
        self.take(self.process.read())
        carriers, served = [asyncio.create_task(self.carry(peer)) for peer in self.peers], set()

        def serve(*streams):
            task = asyncio.create_task(self.serve(*streams))
            served.add(task)    # a loop keeps no task
            task.add_done_callback(served.discard)

        with contextlib.closing(await asyncio.start_server(serve, LOOPBACK, self.ports[self.node])):
            self.event(f"add {GROUP}")
            if self.node == min(self.ports):
                # One node sets the group up, in its first life: in others it is refused.
                self.event(f"init {GROUP} {' '.join(map(str, self.ports))}")
            self.is_open.set()
            until = time.monotonic()
            while self.process.life.poll() is None and not any(task.done() for task in carriers):
                ticks = int((time.monotonic() - until) / TICK)
                until += ticks * TICK
                self.pass_ticks(min(ticks, MOST_TICKS))
                await asyncio.sleep(ROUND)

    def pass_ticks(self, count):
        """So many ticks pass. All are answered before anything else is asked."""
        self.process.write(*["tick"] * count)
        for text in [self.process.read() for _ in range(count)]:
            answer = self.take(text)
            self.has_no_quorum = GROUP in answer.no_quorum

    def event(self, line, client=None):
        """The line is run. A client's future is told of its command, at once or later."""
        if client is None:
            self.process.write(line)
        else:
            self.asked[self.process.propose(line)] = client
        return self.take(self.process.read())

    def take(self, text):
        """What an answer says is sent and told."""
        if text is None:
            raise ConnectionError
        answer = Answer(text)
        if answer.has_failed:
            self.why = text
            self.process.life.kill()
            raise ConnectionError
        for peer, data in answer.frames:
            self.frames[peer].put_nowait(data)
        texts = [(token, f"told {place} {value}") for token, place, value in answer.told]
        texts += [(token, f"full {place}") for token, place in answer.full]
        for token, told in texts + [(token, "unknown") for token in answer.unknown]:
            client = self.asked.pop(token)
            if not client.done():
                client.set_result(told)
        if answer.compact:
            self.shorten()
        return answer

    async def carry(self, peer):
        """Frames to the peer, in their order. Where it can't be reached they are lost."""
        reader = writer = None
        while True:
            data = await self.frames[peer].get()
            try:
                if writer is None or reader.at_eof():
                    reader, writer = await asyncio.open_connection(LOOPBACK, self.ports[peer])
                writer.write(message(FRAME, data))
                await writer.drain()
            except OSError:
                writer = None

    async def serve(self, reader, writer):
        """A connection of a peer or a client."""
        try:
            while True:
                body = await reader.readexactly(int.from_bytes(await reader.readexactly(4), "big"))
                if body[:1] == FRAME:
                    self.feed(body[1:])
                elif body[:1] == ASK:
                    told = await self.answer(body[1:].decode(errors="replace"))
                    writer.write(message(TELL, told.encode()))
        except (OSError, EOFError):
            pass    # one of both sides is gone
        finally:
            writer.close()

    def feed(self, data):
        sender = read_frame(data).sender
        for at in range(0, len(data), PIECE):
            self.event(f"feed {sender} {data[at:at + PIECE].hex()}")

    async def answer(self, text):
        """What a client is told."""
        if text == "status":
            return self.status()
        if not COMMAND.fullmatch(text.encode()):
            return "refused no command"
        if self.has_no_quorum:
            return "refused no quorum"
        client = asyncio.get_running_loop().create_future()
        answer = self.event(text.replace(" ", f" {GROUP} ", 1), client=client)
        if answer.refusal is not None:
            del self.asked[self.process.tokens]
            return answer.text
        return await client

    def status(self):
        """What the node says of the group."""
        return self.words() + (", hears of no quorum" if self.has_no_quorum else "")

    def words(self):
        """The line of the group's status."""
        self.process.write(f"status {GROUP}")
        text = self.process.read()
        if text is None:
            raise ConnectionError
        return text

    def shorten(self):
        """The node's log begins behind a snapshot of all that is applied, and holds no old file back."""
        self.event(f"snapshot {GROUP}")
        words = self.words().split(" ")
        place = words[words.index("snapshot") + 1]
        if place != "-":
            self.event(f"purge {GROUP} {place}")
