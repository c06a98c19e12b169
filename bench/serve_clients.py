#!/usr/bin/env python3
"""Measures `subs serve` with many clients, each with one subscription. It needs Python's `websockets`.

serve_clients.py PORT COMMIT_PORT CLIENTS COMMITS [PID]

The server has to have the metadata of examples/chat. All clients come at once and subscribe to the messages of one
room; so many transactions follow, one after the other, each once all clients have been told of the last one. With
the server's process id it also tells its memory and processor time.
"""
import asyncio
import json
import os
import socket
import sys
import time

import websockets

ROOM = 1
QUERY = (
    "subscription ($room: Int!) { message(where: {room: {_eq: $room}}, order_by: {id: desc}, limit: 1) { id body } }"
)


def used(pid):
    """Processor seconds and resident bytes of a process."""
    with open(f"/proc/{pid}/stat", encoding="ascii") as it:
        fields = it.read().rsplit(")", 1)[1].split()
    ticks = os.sysconf("SC_CLK_TCK")
    return (int(fields[11]) + int(fields[12])) / ticks, int(fields[21]) * os.sysconf("SC_PAGE_SIZE")


class Commits:
    """The commit port: a line each way."""

    def __init__(self, port):
        self.ends = socket.create_connection(("127.0.0.1", port))
        self.ends.setsockopt(socket.IPPROTO_TCP, socket.TCP_NODELAY, 1)
        self.lines = self.ends.makefile("rw", newline="\n")

    def commit(self, changes):
        self.lines.write(json.dumps(changes) + "\n")
        self.lines.flush()
        return self.lines.readline().strip()


def change(key):
    return {"insert": "message", "row": {"id": key, "room": ROOM, "author_id": 1, "body": f"message {key}"}}


async def client(port, number, told, ready):
    uri = f"ws://127.0.0.1:{port}/v1/graphql"
    async with websockets.connect(
        uri, subprotocols=["graphql-transport-ws"], open_timeout=60, ping_interval=None, max_queue=None
    ) as peer:
        await peer.send(json.dumps({"type": "connection_init", "payload": {}}))
        assert json.loads(await peer.recv())["type"] == "connection_ack"
        payload = {"query": QUERY, "variables": {"room": ROOM}}
        await peer.send(json.dumps({"type": "subscribe", "id": "1", "payload": payload}))
        first = json.loads(await peer.recv())
        assert first["type"] == "next", first
        ready.put_nowait(number)
        async for text in peer:
            rows = json.loads(text)["payload"]["data"]["message"]
            told.put_nowait((time.monotonic(), rows[0]["id"] if rows else 0))


async def main(port, commit_port, clients, commits, pid):
    loop = asyncio.get_running_loop()
    told, ready = asyncio.Queue(), asyncio.Queue()
    port_of_commits = Commits(commit_port)
    start = time.monotonic()
    tasks = [asyncio.create_task(client(port, it, told, ready)) for it in range(clients)]
    for _ in range(clients):
        await asyncio.wait_for(ready.get(), 120)
    print(f"{clients} clients subscribed and told once: {time.monotonic() - start:.2f} s")
    if pid:
        print(f"resident: {used(pid)[1] / 1e6:.0f} MB")
        before = used(pid)[0]
        await asyncio.sleep(10)
        print(f"idle: {(used(pid)[0] - before) / 10 * 100:.1f} % of a processor")
    delays, lasts = [], []
    before, began = (used(pid)[0] if pid else 0), time.monotonic()
    base = int(time.time() * 1000) % 1_000_000_000
    for number in range(commits):
        key = base + number
        answer = await loop.run_in_executor(None, port_of_commits.commit, [change(key)])
        answered = time.monotonic()
        assert answer.startswith("commit"), answer
        times = []
        while len(times) < clients:
            at, row = await asyncio.wait_for(told.get(), 60)
            if row == key:
                times.append(at)
        delays.append(min(times) - answered)
        lasts.append(max(times) - answered)
    took = time.monotonic() - began
    if commits:
        messages = commits * clients
        print(f"{commits} commits, {messages} messages in {took:.2f} s: {messages / took:.0f} a second")
        first, last = (sorted(it)[len(it) // 2] * 1000 for it in (delays, lasts))
        print(f"from a commit's answer to the first client {first:.1f} ms, to the last {last:.1f} ms (medians)")
    if pid and commits:
        print(f"processor time: {(used(pid)[0] - before) / (commits * clients) * 1e6:.1f} microseconds a message")
    gone = time.monotonic()
    for task in tasks:
        task.cancel()
    await asyncio.gather(*tasks, return_exceptions=True)
    print(f"all gone: {time.monotonic() - gone:.2f} s")


if __name__ == "__main__":
    words = [int(it) for it in sys.argv[1:]]
    asyncio.run(main(words[0], words[1], words[2], words[3], words[4] if len(words) > 4 else None))
