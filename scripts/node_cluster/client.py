"""A client: it finds the leader, and asks again where no answer comes."""
import socket
import time

from .messages import ASK, LOOPBACK, message

PAUSE, ANSWER, PATIENCE = 0.1, 2, 10           # seconds
AGAIN = "it may be carried out, is asked again, and may stand twice"


def ask(port, text):
    """What the node at the port answers, or that it doesn't."""
    try:
        with socket.create_connection((LOOPBACK, port), ANSWER) as stream, stream.makefile("rb") as answer:
            stream.sendall(message(ASK, text.encode()))
            body = answer.read(int.from_bytes(answer.read(4), "big"))
            return body[1:].decode() if body else "no answer, the connection was lost"
    except ConnectionRefusedError:
        return "can't be reached"
    except OSError as why:
        return f"no answer, {why}"


class Client:
    """It asks the nodes at these ports, which are in the order of their ids, from 1 on."""

    def __init__(self, ports):
        self.ports = ports
        self.node = 1

    def run(self, text):
        """Asks until the command is told, or can't be; whether it was told. What a node says again isn't shown again."""
        end, said = time.monotonic() + PATIENCE, {}
        while time.monotonic() < end:
            node, self.node = self.node, self.node % len(self.ports) + 1
            answer = ask(self.ports[node - 1], text)
            words = answer.split(" ")
            if words[0] == "told":
                self.node = node
                before = "" if text.startswith("get ") else "before it: "
                print(f"node {node}: told at place {words[1]}, {before}{words[2]}")
                return True
            if words[0] in ("unknown", "no"):
                answer += f": {AGAIN}"
            if said.get(node) != answer or AGAIN in answer:
                print(f"node {node}: {answer}")
            if words[0] == "full" or answer == "refused no command":
                return False
            said[node] = answer
            if words[:3] == ["refused", "1", "NotLeader"] and words[3] in map(str, range(1, len(self.ports) + 1)):
                self.node = int(words[3])
            time.sleep(PAUSE)
        print(f"nothing was told within {PATIENCE} seconds")
        return False

    def status(self):
        """Shows what each node says; whether any says its status."""
        answers = [ask(port, "status") for port in self.ports]
        for node, answer in enumerate(answers, 1):
            print(f"node {node}: {answer}")
        return any(answer.startswith("status ") for answer in answers)
