"""NATS servers of this machine: one, or three that keep copies of streams. They end with the program that has started them."""
import json
import os
import shutil
import socket
import subprocess
import tempfile
import time


def free_ports(count):
    sockets = [socket.create_server(("127.0.0.1", 0)) for _ in range(count)]
    ports = [it.getsockname()[1] for it in sockets]
    for it in sockets:
        it.close()
    return ports


class Servers:
    def __init__(self, count):
        self.folder = tempfile.mkdtemp(prefix="nats-")
        ports = free_ports(3 * count)
        self.ports, self.routes, self.watched = ports[:count], ports[count : 2 * count], ports[2 * count :]
        self.children = {}
        for i in range(count):
            self.configure(i)
            self.start(i)
        if count > 1:
            self.await_leader()

    def configure(self, i):
        lines = [f"server_name: s{i}", f"listen: 127.0.0.1:{self.ports[i]}", f"http: 127.0.0.1:{self.watched[i]}"]
        lines.append(f'jetstream {{ store_dir: "{self.folder}/{i}" }}')
        if len(self.ports) > 1:
            routes = ", ".join(f"nats://127.0.0.1:{port}" for port in self.routes)
            lines.append(f"cluster {{ name: nodes, listen: 127.0.0.1:{self.routes[i]}, routes: [{routes}] }}")
        with open(os.path.join(self.folder, f"{i}.conf"), "w") as file:
            file.write("\n".join(lines) + "\n")

    def start(self, i):
        with open(os.path.join(self.folder, f"{i}.out"), "ab") as out:
            words = ["nats-server", "-c", os.path.join(self.folder, f"{i}.conf")]
            self.children[i] = subprocess.Popen(words, stdout=out, stderr=out)
        while socket.socket().connect_ex(("127.0.0.1", self.ports[i])):
            time.sleep(0.01)

    def kill(self, i):
        self.children[i].kill()
        self.children[i].wait()

    def leader(self, stream=None):
        """The server that leads a stream, or all of JetStream, by the first reply; None if there is none."""
        for port in self.watched:
            try:
                with socket.create_connection(("127.0.0.1", port), timeout=1) as it:
                    it.sendall(b"GET /jsz?streams=true&config=true HTTP/1.0\r\n\r\n")
                    reply = json.loads(it.makefile("rb").read().partition(b"\r\n\r\n")[2])
            except (OSError, ValueError):
                continue
            streams = [it for account in reply.get("account_details") or () for it in account.get("stream_detail") or ()]
            led = [it.get("cluster", {}).get("leader") for it in streams if it["name"] == stream]
            name = led[0] if led else reply.get("meta_cluster", {}).get("leader")
            if name:
                return int(name[1:])
        return None

    def await_leader(self):
        while self.leader() is None:
            time.sleep(0.1)

    def close(self):
        for child in self.children.values():
            child.kill()
            child.wait()
        shutil.rmtree(self.folder, ignore_errors=True)
