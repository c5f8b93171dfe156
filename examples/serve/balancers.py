"""What the trials of this folder share: clients, two instances of the program, and a balancer over the configuration of
this folder, with other ports and with shorter limits of time."""
import contextlib
import os
import shutil
import socket
import subprocess
import sys
import tempfile
import threading
import time

HERE = os.path.dirname(os.path.abspath(__file__))
TOP = os.path.dirname(os.path.dirname(HERE))
LOCAL = "127.0.0.1"
FRONT, FIRST, SECOND, BACK, ORIGIN = "8080", "8081", "8082", "8083", "8000"  # the ports of the configurations
CONFIGURATIONS = {"haproxy": "haproxy.cfg", "nginx": "nginx.conf"}


def program():
    """The program that the words name, or that of this checkout."""
    return os.path.abspath(sys.argv[1]) if len(sys.argv) > 1 else os.path.join(TOP, "out/tsx")


def installed():
    """The balancers that are there."""
    for balancer in CONFIGURATIONS:
        if shutil.which(balancer):
            yield balancer
        else:
            print(f"{balancer} is not installed")


def free_port():
    with socket.create_server((LOCAL, 0)) as server:
        return server.getsockname()[1]


def wait_for(port):
    for _ in range(500):
        try:
            return socket.create_connection((LOCAL, port)).close()
        except ConnectionRefusedError:
            time.sleep(0.02)
    sys.exit(f"nobody listens at {port}")


def ask(port, path="/", method="GET", patience=20, source=LOCAL):
    """The status and the body that a client gets; where it gets none, a word on why."""
    fields = "Content-Length: 0\r\n" if method == "POST" else ""
    head = f"{method} {path} HTTP/1.1\r\nHost: a\r\n{fields}Connection: close\r\n\r\n"
    try:
        with socket.create_connection((LOCAL, port), patience, (source, 0)) as peer:
            peer.sendall(head.encode())
            got = b"".join(iter(lambda: peer.recv(1 << 16), b""))
    except OSError as fault:
        return type(fault).__name__, b""
    head, _, body = got.partition(b"\r\n\r\n")
    return head.split(b" ", 2)[1].decode() if head else "no answer", body


class Instances:
    """The two instances, by the ports that the configurations have for them."""

    def __init__(self, path, ports):
        self.path, self.ports, self.running = path, ports, {}

    def start(self, which=FIRST):
        addresses = ["--listen", f"{LOCAL}:{self.ports[which]}", "--origin", f"{LOCAL}:{self.ports[BACK]}"]
        words = [self.path, "serve", *addresses, "--config", os.devnull, "--threads", "2"]
        self.running[which] = subprocess.Popen(words)

    def stop(self, which=FIRST):
        process = self.running.pop(which)
        process.terminate()
        process.wait()

    def stop_all(self):
        for which in list(self.running):
            self.stop(which)

    def descriptors(self):
        """How many descriptors each of them that runs has open, by its port."""
        return {which: len(os.listdir(f"/proc/{process.pid}/fd")) for which, process in self.running.items()}


def words_of(balancer, folder, ports, limits):
    """The words that start a balancer over the configuration of this folder, with these ports and limits."""
    name = CONFIGURATIONS[balancer]
    with open(os.path.join(HERE, name)) as text:
        config = text.read()
    for stated, other in [*((f":{port}", f":{ports[port]}") for port in ports), *limits]:
        if stated not in config:
            sys.exit(f"{name} has no {stated!r}")
        config = config.replace(stated, other)
    path = os.path.join(folder, name)
    with open(path, "w") as out:
        out.write(config)
    if balancer == "haproxy":
        return ["haproxy", "-f", path]
    return ["nginx", "-p", folder, "-c", path, "-e", "stderr", "-g", "daemon off;"]


@contextlib.contextmanager
def balanced(path, balancer, origin_port, limits=(), read_log=list):
    """A balancer with two instances, and the port of each by the one that the configuration has for it. Its log is
    read by `read_log`, in a thread of its own."""
    ports = {port: free_port() for port in (FRONT, FIRST, SECOND, BACK)} | {ORIGIN: origin_port}
    instances = Instances(path, ports)
    with tempfile.TemporaryDirectory() as folder:
        os.chmod(folder, 0o755)
        words = words_of(balancer, folder, ports, limits)
        process = subprocess.Popen(words, stdout=subprocess.PIPE, stderr=subprocess.DEVNULL, text=True)
        reader = threading.Thread(target=read_log, args=(process.stdout,))
        reader.start()
        try:
            instances.start(FIRST), instances.start(SECOND)
            for port in ports.values():
                wait_for(port)
            yield instances
        finally:
            instances.stop_all()
            process.terminate()
            process.wait()
            reader.join()
