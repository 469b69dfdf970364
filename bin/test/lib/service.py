"""Processes of `cuestored`, the clients that hand pieces in, and the links between sites, for bin/test/site."""
import contextlib
import http.client
import json
import multiprocessing
import os
import random
import selectors
import signal
import socket
import subprocess
import sys
import threading
import time

TOP = os.path.dirname(os.path.dirname(os.path.dirname(os.path.dirname(os.path.realpath(__file__)))))
PROGRAM = os.path.abspath(os.environ.get("CUESTORED", f"{TOP}/crates/cuestored/out/cuestored"))
sys.path.insert(0, f"{TOP}/bin/lib")
from serving import free_port, is_listening  # noqa: E402

SECONDS = 120  # for one answer
STARTED = []  # each process


def end_all():
    for process in STARTED:
        if process.poll() is None:
            process.kill()
            process.wait()


class Site:
    """A process that serves a folder."""

    def __init__(self, folder, *words, port=None):
        self.folder, self.port, self.words = folder, port or free_port(), words
        self.log_path = f"{folder}.log"
        self.process = None

    def command(self, address="127.0.0.1"):
        return [PROGRAM, "--data", self.folder, "--listen", f"{address}:{self.port}", *self.words]

    def run(self, **how):
        with open(self.log_path, "ab") as log:
            self.process = subprocess.Popen(self.command(), stdout=subprocess.DEVNULL, stderr=log, **how)
        STARTED.append(self.process)
        return self.process

    def start(self, **how):
        self.run(**how)
        if self.listens():
            return self
        sys.exit(f"FAILED: {PROGRAM} does not listen: {self.log()}")

    def listens(self):
        """Whether it listens, or has ended."""
        for _ in range(SECONDS * 100):
            if is_listening(self.port):
                return True
            if self.process.poll() is not None:
                break
            time.sleep(0.01)
        return False

    def log(self):
        with open(self.log_path, encoding="utf-8", errors="replace") as log:
            return log.read()

    def kill(self):
        self.process.send_signal(signal.SIGKILL)
        self.process.wait()

    def ask(self, method, path, body=None, **headers):
        """The status, the fields and the body of an answer."""
        connection = http.client.HTTPConnection("127.0.0.1", self.port, timeout=SECONDS)
        try:
            connection.request(method, path, body, {name.replace("_", "-"): value for name, value in headers.items()})
            answer = connection.getresponse()
            return answer.status, answer.headers, answer.read()
        finally:
            connection.close()

    def post(self, text):
        return self.ask("POST", "/fragments", text.encode())[0]

    def tag(self):
        return self.ask("GET", "/healthz") and self.ask("HEAD", "/state")[1]["ETag"]

    def export(self):
        status, _, body = self.ask("GET", "/export")
        return json.loads(body) if status == 200 else {}

    def metric(self, name):
        for line in self.ask("GET", "/metrics")[2].decode().splitlines():
            if line.startswith(f"{name} "):
                return int(line.split()[1])
        return None


def hand_in(port, name, most, pipe):
    """Hands in pieces of its own until it is told to end, and tells which of them it sent, which were acknowledged, and
    which acknowledged ones the site's export did not have at once."""
    signal.signal(signal.SIGINT, signal.SIG_IGN)
    sent, kept, missing, connection, number = {}, {}, [], None, 0
    while not pipe.poll() and number < most:
        key, number = f"{name}_{number}", number + 1
        filler = "x" * random.choice((0, 10, 5_000))
        sent[key] = number
        try:
            connection = connection or http.client.HTTPConnection("127.0.0.1", port, timeout=SECONDS)
            connection.request("POST", "/fragments", f"{key}: {number} //{filler}\n".encode())
            answer = connection.getresponse()
            answer.read()
            if answer.status != 204:
                missing.append((key, answer.status))
                continue
            kept[key] = number
            if random.random() < 0.2:
                connection.request("GET", "/export")
                found = json.loads(connection.getresponse().read())
                missing += [each for each, value in kept.items() if found.get(each) != value]
        except (OSError, http.client.HTTPException):
            connection = None
            time.sleep(0.02)
        time.sleep(random.uniform(0, 0.02))
    pipe.send((sent, kept, missing))


class Client:
    """A process that hands in pieces."""

    def __init__(self, site, name, most):
        self.site = site
        self.pipe, other = multiprocessing.Pipe()
        self.process = multiprocessing.Process(target=hand_in, args=(site.port, name, most, other))
        self.process.start()
        other.close()

    def end(self):
        with contextlib.suppress(BrokenPipeError):  # it has ended by itself
            self.pipe.send("end")
        told = self.pipe.recv()
        self.process.join()
        self.pipe.close()
        return told


class Links:
    """One address for each link from a site to another, which passes on what comes; a link that is cut lets in and out
    nothing, and ends no connection."""

    def __init__(self):
        self.ports, self.cut, self.ended = {}, set(), False
        self.selector = selectors.DefaultSelector()

    def add(self, link, to_port):
        listener = socket.create_server(("127.0.0.1", 0))
        listener.setblocking(False)
        self.ports[link] = listener.getsockname()[1]
        self.selector.register(listener, selectors.EVENT_READ, (self.take, link, to_port))
        return self.ports[link]

    def start(self):
        self.thread = threading.Thread(target=self.run, daemon=True)
        self.thread.start()
        return self

    def run(self):
        while not self.ended:
            busy = False
            for key, _ in self.selector.select(0.2):
                step, *rest = key.data
                busy = step(key.fileobj, *rest) or busy
            if not busy:
                time.sleep(0.005)  # what is cut stays readable

    def take(self, listener, link, to_port):
        if link in self.cut:
            return False
        one, _ = listener.accept()
        try:
            other = socket.create_connection(("127.0.0.1", to_port), timeout=1)
        except OSError:
            one.close()
            return True
        for here, there in ((one, other), (other, one)):
            here.settimeout(SECONDS)
            self.selector.register(here, selectors.EVENT_READ, (self.move, link, there))
        return True

    def move(self, here, link, there):
        if link in self.cut:
            return False
        try:
            found = here.recv(65536)
            if found:
                there.sendall(found)
                return True
        except OSError:
            pass
        for each in (here, there):
            try:
                self.selector.unregister(each)
            except (KeyError, ValueError):
                pass
            each.close()
        return True

    def close(self):
        self.ended = True
        self.thread.join()
        for key in list(self.selector.get_map().values()):
            key.fileobj.close()
        self.selector.close()


def read_all(connection):
    """What a socket gives until its end, or until it gives nothing."""
    found = b""
    try:
        while piece := connection.recv(65536):
            found += piece
    except OSError:
        pass
    return found
