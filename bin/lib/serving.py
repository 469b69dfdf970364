"""A process that serves a site, and the frames that it is sent and replies with, for the scripts in bin/."""
import os
import resource
import select
import socket
import subprocess
import time

TOP = os.path.dirname(os.path.dirname(os.path.dirname(os.path.realpath(__file__))))
PROGRAM = os.path.abspath(os.environ.get("CUESTORE", f"{TOP}/crates/cuestore/out/cuestore"))
LIMIT = 16777216  # the most bytes of a frame behind its length
SECONDS = 20  # after which a process that says nothing hangs


class Hang(Exception):
    """Nothing was heard for so long."""


def is_listening(port):
    """Whether a socket listens on the port of 127.0.0.1, without connecting to it."""
    wanted = "0100007F:%04X" % port
    with open("/proc/net/tcp", encoding="ascii") as table:
        return any(row.split()[1:4] == [wanted, "00000000:0000", "0A"] for row in table)


def free_port():
    with socket.socket() as probe:
        probe.bind(("127.0.0.1", 0))
        return probe.getsockname()[1]


def limit_memory(size):
    """Limits what this process and those that it starts may take, and lets none of them leave a core."""
    resource.setrlimit(resource.RLIMIT_AS, (size, size))
    resource.setrlimit(resource.RLIMIT_CORE, (0, 0))


def run(*words, given=b"", env=None):
    """The status of the program, which is negative after a signal, and its output and faults."""
    try:
        done = subprocess.run([PROGRAM, *words], input=given, capture_output=True, timeout=SECONDS, env=env, check=False)
    except subprocess.TimeoutExpired:
        raise Hang(" ".join(words)) from None
    return done.returncode, done.stdout, done.stderr


class Server:
    """A process that serves so many connections to a new site."""

    def __init__(self, count, env=None, fds=(), tries=20):
        for _ in range(tries):  # another process may take the port first
            self.port = free_port()
            self.process = subprocess.Popen([PROGRAM, "serve", str(self.port), str(count)], stdin=subprocess.DEVNULL,
                                            stdout=subprocess.PIPE, stderr=subprocess.PIPE, env=env, pass_fds=fds)
            self.pid = self.process.pid
            self.listens = self.waits()
            if self.listens or tries == 1:
                return
            self.kill()
        raise Hang("serve listens on no port")

    def waits(self):
        until = time.monotonic() + SECONDS
        while time.monotonic() < until and self.process.poll() is None:
            if is_listening(self.port):
                return True
            time.sleep(0.001)
        return False

    def connect(self):
        peer = socket.create_connection(("127.0.0.1", self.port), timeout=SECONDS)
        peer.setsockopt(socket.IPPROTO_TCP, socket.TCP_NODELAY, 1)
        return peer

    def forget_peak(self):
        with open(f"/proc/{self.pid}/clear_refs", "w", encoding="ascii") as file:
            file.write("5")

    def peak(self):
        """The most bytes that the process had at once, since it was last forgotten."""
        with open(f"/proc/{self.pid}/status", encoding="ascii") as file:
            for line in file:
                if line.startswith("VmHWM:"):
                    return int(line.split()[1]) * 1024
        return 0

    def ended(self):
        """The status, the output and the faults, once the last connection is closed."""
        try:
            out, faults = self.process.communicate(timeout=SECONDS)
        except subprocess.TimeoutExpired:
            self.kill()
            raise Hang("serve does not end") from None
        return self.process.returncode, out, faults

    def kill(self):
        self.process.kill()
        self.process.communicate()


def framed(body):
    return len(body).to_bytes(4, "big") + body


def frames_of(stream):
    """The bodies of the whole frames of a stream, what is behind them, and whether that names a length that no frame has."""
    bodies, at = [], 0
    while len(stream) >= at + 4:
        size = int.from_bytes(stream[at : at + 4], "big")
        if size > LIMIT:
            return bodies, stream[at:], True
        if len(stream) < at + 4 + size:
            break
        bodies.append(stream[at + 4 : at + 4 + size])
        at += 4 + size
    return bodies, stream[at:], False


def reply_of(peer, request):
    """The body of the reply to one whole request."""
    peer.sendall(framed(request))
    size = int.from_bytes(received(peer, 4), "big")
    if size > LIMIT:
        raise ValueError(f"a reply of {size} bytes")
    return received(peer, size)


def received(peer, count):
    parts = []
    while count > 0:
        try:
            part = peer.recv(min(count, 1 << 20))
        except socket.timeout:
            raise Hang("no reply") from None
        if not part:
            raise ConnectionError("the connection ended before a reply")
        parts.append(part)
        count -= len(part)
    return b"".join(parts)


def exchanged(peer, stream):
    """All that comes back while the stream is sent and after its end, and whether the connection was cut off."""
    peer.setblocking(False)
    heard, at, is_open = [], 0, True
    while True:
        readable, writable, _ = select.select([peer], [peer] if is_open else [], [], SECONDS)
        if not readable and not writable:
            raise Hang("no reply")
        try:
            if writable:
                at += peer.send(stream[at : at + 65536])
                if at == len(stream):
                    peer.shutdown(socket.SHUT_WR)
                    is_open = False
            if readable:
                part = peer.recv(1 << 20)
                if not part:
                    return b"".join(heard), False
                heard.append(part)
        except (BrokenPipeError, ConnectionResetError):
            return b"".join(heard) + left_in(peer), True
        except OSError:  # shut down by the peer already
            is_open = False


def left_in(peer):
    """What had come before the connection was cut off."""
    parts = []
    try:
        while True:
            part = peer.recv(1 << 20)
            if not part:
                break
            parts.append(part)
    except OSError:
        pass
    return b"".join(parts)
