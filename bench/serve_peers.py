#!/usr/bin/env python3
"""Tries `subs serve` with peers that keep and break the protocol, over plain sockets, and says what each was answered.

serve_peers.py PORT COMMIT_PORT

The server has to have the metadata of examples/chat. The last line says how many answers were other than they should be.
"""
import base64
import json
import os
import socket
import struct
import sys
import time

SUBSCRIBE = {"type": "subscribe", "id": "1", "payload": {"query": "subscription { user { id name } }"}}


class Peer:
    """A client's end of a WebSocket, which may send whatever bytes it likes."""

    def __init__(self, port, fields=None, opens=True):
        self.end = socket.create_connection(("127.0.0.1", port))
        self.end.settimeout(15)
        self.rest = b""
        self.answer = None
        if opens:
            self.shake(fields or {})

    def shake(self, fields):
        named = {
            "Host": "127.0.0.1",
            "Upgrade": "websocket",
            "Connection": "Upgrade",
            "Sec-WebSocket-Key": base64.b64encode(os.urandom(16)).decode(),
            "Sec-WebSocket-Version": "13",
            "Sec-WebSocket-Protocol": "graphql-transport-ws",
        }
        named.update(fields)
        lines = [f"{name}: {value}" for name, value in named.items() if value is not None]
        self.end.sendall(("GET /v1/graphql HTTP/1.1\r\n" + "\r\n".join(lines) + "\r\n\r\n").encode())
        while b"\r\n\r\n" not in self.rest:
            piece = self.end.recv(65536)
            if not piece:
                break
            self.rest += piece
        head, _, self.rest = self.rest.partition(b"\r\n\r\n")
        self.answer = head.decode(errors="replace")

    def frame(self, opcode, payload, final=True, masked=True):
        size = len(payload)
        bit = 0x80 if masked else 0
        head = bytes([opcode | (0x80 if final else 0)])
        if size < 126:
            head += bytes([bit | size])
        elif size < 65536:
            head += bytes([bit | 126]) + struct.pack(">H", size)
        else:
            head += bytes([bit | 127]) + struct.pack(">Q", size)
        # (a mask of zeros leaves the payload as it is)
        self.end.sendall(head + (b"\0\0\0\0" if masked else b"") + payload)

    def say(self, message):
        self.frame(1, json.dumps(message).encode() if isinstance(message, dict) else message)

    def take(self, size):
        while len(self.rest) < size:
            piece = self.end.recv(1 << 16)
            if not piece:
                raise EOFError
            self.rest += piece
        taken, self.rest = self.rest[:size], self.rest[size:]
        return taken

    def hear(self):
        """The next frame: its opcode and payload; (None, b"") at the end."""
        try:
            first, second = self.take(2)
            size = second & 0x7F
            if size == 126:
                size = struct.unpack(">H", self.take(2))[0]
            elif size == 127:
                size = struct.unpack(">Q", self.take(8))[0]
            return first & 0x0F, self.take(size)
        except (EOFError, ConnectionError):
            return None, b""
        except socket.timeout:
            return "nothing", b""

    def closed(self):
        """The code of the close that comes next, or what came in its place."""
        while True:
            opcode, payload = self.hear()
            if opcode == 8:
                return struct.unpack(">H", payload[:2])[0] if len(payload) >= 2 else "no code"
            if opcode is None or opcode == "nothing":
                return opcode
            if opcode not in (1, 9, 10):
                return opcode

    def acknowledged(self):
        self.say({"type": "connection_init"})
        return json.loads(self.hear()[1])["type"] == "connection_ack"

    def told(self):
        opcode, payload = self.hear()
        return json.loads(payload).get("type") if opcode == 1 else opcode


def padded(size):
    """A subscribe of so many bytes."""
    text = json.dumps(SUBSCRIBE)
    return text[:-1].encode() + b" " * (size - len(text)) + b"}"


def main(port, commit_port):
    wrong = 0

    def check(what, found, wanted):
        nonlocal wrong
        wrong += found != wanted
        print(f"{'ok   ' if found == wanted else 'WRONG'} {what}: {found}")

    def status(peer):
        return peer.answer.split(" ")[1] if peer.answer else "closed"

    peer = Peer(port)
    check("a handshake", status(peer), "101")
    check("the sub-protocol is chosen", "graphql-transport-ws" in peer.answer, True)
    check("an init is acknowledged", peer.acknowledged(), True)
    check("no sub-protocol", status(Peer(port, {"Sec-WebSocket-Protocol": None})), "400")
    check("another sub-protocol", status(Peer(port, {"Sec-WebSocket-Protocol": "graphql-ws"})), "400")
    check("no key", status(Peer(port, {"Sec-WebSocket-Key": None})) in ("400", "closed"), True)
    check("another version", status(Peer(port, {"Sec-WebSocket-Version": "8"})) in ("400", "426", "closed"), True)
    other = Peer(port, opens=False)
    other.end.sendall(b"\x16\x03\x01 this is no HTTP\r\n\r\n")
    check("what isn't HTTP is closed", other.hear()[0] in (None, 8), True)
    halves = [Peer(port, opens=False) for _ in range(20)]
    for half in halves:
        half.end.sendall(b"GET / HTTP/1.1\r\nHost: x\r\n")
    began = time.monotonic()
    check("beside 20 half handshakes", Peer(port).acknowledged(), True)
    check("at once", time.monotonic() - began < 1, True)
    check("a connection that says nothing", Peer(port).closed(), 4408)

    peer = Peer(port)
    peer.acknowledged()
    peer.say(padded(1_048_576))
    check("a message of 1,048,576 bytes", peer.told(), "next")
    peer.say(padded(1_048_577))
    check("a message of one byte more", peer.closed(), 4400)
    peer = Peer(port)
    peer.acknowledged()
    peer.frame(1, padded(3_000_000))
    check("a message of 3,000,000 bytes", peer.closed(), 1009)

    peer = Peer(port)
    peer.acknowledged()
    text = json.dumps(SUBSCRIBE).encode()
    peer.frame(1, text[:10], final=False)
    peer.frame(9, b"are you there")
    peer.frame(0, text[10:20], final=False)
    peer.frame(0, text[20:])
    check("a ping between fragments", peer.hear(), (10, b"are you there"))
    check("a message in fragments", peer.told(), "next")
    peer.say({"type": "ping"})
    check("a ping of the protocol", peer.told(), "pong")
    peer.frame(8, struct.pack(">H", 1000))
    check("a close is answered with its code", peer.closed(), 1000)

    for what, frame, code in (
        ("text that isn't UTF-8", (1, b"\xff\xfe"), 1007),
        ("a fragment without a beginning", (0, b"x"), 1002),
        ("an opcode that there isn't", (3, b"x"), 1002),
    ):
        peer = Peer(port)
        peer.acknowledged()
        peer.frame(*frame)
        check(what, peer.closed(), code)
    peer = Peer(port)
    peer.acknowledged()
    peer.frame(1, b"{}", masked=False)
    check("a frame without a mask", peer.closed(), 1002)
    for what, message, code in (
        ("no JSON", b"hello", 4400),
        ("a second init", {"type": "connection_init"}, 4429),
        ("a message of no type", {"type": "nothing"}, 4400),
    ):
        peer = Peer(port)
        peer.acknowledged()
        peer.say(message)
        check(what, peer.closed(), code)
    peer = Peer(port)
    peer.say(SUBSCRIBE)
    check("a subscribe before the init", peer.closed(), 4401)
    peer = Peer(port)
    peer.acknowledged()
    peer.say(SUBSCRIBE)
    peer.told()
    peer.say(SUBSCRIBE)
    check("an id that is in use", peer.closed(), 4409)

    stopped = Peer(port)
    stopped.acknowledged()
    stopped.say(SUBSCRIBE)
    commits = socket.create_connection(("127.0.0.1", commit_port)).makefile("rw", newline="\n")
    base = int(time.time() * 1000) % 1_000_000_000

    def commit(line):
        commits.write(line + "\n")
        commits.flush()
        return commits.readline().split(" ")[0].strip()

    def user(key, name="a"):
        return json.dumps([{"insert": "user", "row": {"id": key, "name": name}}])

    check("a transaction", commit(user(base)), "commit")
    check("the same again", commit(user(base)), "refused")
    check("what is no transaction", commit("hello"), "bad")
    commits.write(user(base + 1) + "\n" + "nonsense\n" + user(base + 2) + "\n")
    commits.flush()
    check("three lines at once", [commits.readline().split(" ")[0].strip() for _ in range(3)], ["commit", "bad", "commit"])
    second = socket.create_connection(("127.0.0.1", commit_port))
    second.settimeout(1)
    second.sendall((user(base + 3) + "\n").encode())
    try:
        waited = not second.recv(10)
    except socket.timeout:
        waited = True
    check("a second connection to the commit port waits", waited, True)
    commits.close()
    second.settimeout(15)
    check("and has its turn", second.recv(100).split(b" ")[0], b"commit")
    second.close()
    peer = Peer(port)
    peer.acknowledged()
    peer.say(SUBSCRIBE)
    check("a new client is told", peer.told(), "next")
    print(f"{wrong} answers were other than they should be")
    return 1 if wrong else 0


if __name__ == "__main__":
    sys.exit(main(int(sys.argv[1]), int(sys.argv[2])))
