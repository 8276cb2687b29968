"""A process of raft_node_files: lines to it, and its answers."""
import select
import subprocess
import time


class NodeProcess:
    """One life of a node. Its first answer is that of the opening."""

    def __init__(self, program, directory, node, words=()):
        self.node = node
        self.life = subprocess.Popen([program, directory, str(node), *words], bufsize=0,
                                     stdin=subprocess.PIPE, stdout=subprocess.PIPE)
        self.held = b""        # what was read, and is no whole line yet
        self.tokens = 0        # so many proposals were written

    def write(self, *lines):
        try:
            self.life.stdin.write(b"".join(line.encode() + b"\n" for line in lines))
        except BrokenPipeError:
            pass

    def propose(self, line):
        """Writes a line that has a token, and returns that."""
        self.write(line)
        self.tokens += 1
        return self.tokens

    def read(self, seconds=600):
        """The next whole answer; none where it doesn't come in time or the process is gone."""
        end = time.monotonic() + seconds
        while b"\n" not in self.held:
            left = end - time.monotonic()
            if left <= 0 or not select.select([self.life.stdout], [], [], left)[0]:
                return None
            more = self.life.stdout.read(1 << 20)
            if not more:
                return None
            self.held += more
        line, self.held = self.held.split(b"\n", 1)
        return line.decode()

    def kill(self):
        """SIGKILL, whatever it does just now; the whole answers that it had written."""
        self.life.kill()
        self.life.wait()
        lines = (self.held + self.life.stdout.read()).split(b"\n")[:-1]
        self.life.stdin.close()
        self.life.stdout.close()
        return [line.decode() for line in lines]
