"""The carriers of states: a folder, a git repository, etcd, redis, a blob store. Names and bytes that come from one are
data that anybody may have written: links are not followed, names have few characters, sizes have an end."""
import base64
import contextlib
import fcntl
import json
import os
import re
import shutil
import socket
import ssl
import stat
import subprocess
import tempfile

from sites import LAYERS, Fault, naming

NAME = re.compile(r"[A-Za-z0-9_][A-Za-z0-9._-]*\Z")
STATES, FRAGMENTS = ".state", ".fragments"


class Carrier:
    """What every carrier has: the generation, limits, and what was passed over, to be told. An entry's name is a site's, or
    a site's with `.fragments` or `.layers`."""

    def __init__(self, at, generation, most, seconds):
        self.at, self.generation, self.most, self.seconds, self.passed = at, generation, most, seconds, []

    def run(self, words, given=None, env=None, empty=()):
        """What a command prints; nothing, where it ends with a status that says that there is nothing."""
        try:
            with open(given or os.devnull, "rb") as data:
                done = subprocess.run(words, stdin=data, capture_output=True, timeout=self.seconds, env=env, check=False)
        except FileNotFoundError:
            raise Fault(f"{words[0]} is not installed", 4) from None
        except subprocess.TimeoutExpired:
            raise Fault(f"{words[0]} did not answer in {self.seconds} seconds", 4) from None
        if done.returncode in empty:
            return None
        if done.returncode:
            raise Fault(f"{words[0]}: {done.stderr.decode(errors='replace').strip() or f'status {done.returncode}'}", 4)
        return done.stdout

    def run_to(self, path, words, env=None):
        """Writes what a command prints to a file, of the size that a state may have at most."""
        with subprocess.Popen(words, stdin=subprocess.DEVNULL, stdout=subprocess.PIPE, stderr=subprocess.PIPE, env=env) as process:
            with naming(path), open(path, "wb") as file:
                if not copied(process.stdout, file, self.most + 1):
                    process.kill()
                    raise TooLarge
            faults = process.stderr.read().decode(errors="replace").strip()
        if process.returncode:
            raise Fault(f"{words[0]}: {faults or f'status {process.returncode}'}", 4)

    def is_entry(self, name):
        """Whether what lies there is an entry; what merely looks like one is noted."""
        if NAME.match(name) and "/" not in name:
            return True
        self.passed.append(f"{ascii(name)[:80]} is no site's name")
        return False

    def fetch(self, into):
        """Gets all entries into a folder: their names and files, and how many of those that are listed were not got."""
        names, generations = self.listed()
        if any(number > self.generation for number in generations):
            raise Fault(f"the carrier is at generation {max(generations)}, and this site at {self.generation}: make its state "
                        f"anew from its fragments, and go on with --generation {max(generations)}", 1)
        found, lost = [], 0
        for number, name in enumerate(sorted(names)):
            path = os.path.join(into, str(number))
            try:
                if self.get(name, path):
                    found.append((name, path))
                else:
                    lost += 1
            except TooLarge:
                self.passed.append(f"{name} has more than {self.most} bytes")
            except Fault as fault:
                self.passed.append(f"{name}: {fault}")
                lost += 1
        return found, lost


class TooLarge(Exception):
    """An entry has more bytes than a state may have."""


def copied(source, target, most):
    """Copies all that comes; whether it was less than so many bytes."""
    count = 0
    while piece := source.read(1 << 16):
        count += len(piece)
        if count >= most:
            return False
        target.write(piece)
    return True


def entry_of(file):
    """The entry that a file has, by its name; none, where it is another file."""
    if file.endswith((FRAGMENTS, LAYERS)):
        return file
    return file[:-len(STATES)] if file.endswith(STATES) else None


def file_of(entry):
    return entry if entry.endswith((FRAGMENTS, LAYERS)) else entry + STATES


class Folder(Carrier):
    """A folder here: an entry is a regular file."""

    def place(self):
        return os.path.join(self.at, str(self.generation)) if self.generation else self.at

    def listed(self):
        names, generations = set(), set()
        with contextlib.suppress(FileNotFoundError), os.scandir(self.at) as files:
            generations = {int(file.name) for file in files if file.name.isdecimal() and file.is_dir(follow_symlinks=False)}
        with contextlib.suppress(FileNotFoundError), os.scandir(self.place()) as files:
            for file in files:
                entry = entry_of(file.name)
                if entry is not None and not file.name.startswith(".") and self.is_entry(entry):
                    if file.is_file(follow_symlinks=False):
                        names.add(entry)
                    else:
                        self.passed.append(f"{file.name} is no regular file")
        return names, generations

    def get(self, name, path):
        try:
            handle = os.open(os.path.join(self.place(), file_of(name)), os.O_RDONLY | os.O_NOFOLLOW | os.O_NONBLOCK)
        except FileNotFoundError:
            return False
        with os.fdopen(handle, "rb") as source, naming(path), open(path, "wb") as target:
            if not stat.S_ISREG(os.fstat(handle).st_mode):
                return False
            if not copied(source, target, self.most + 1):
                raise TooLarge
        return True

    def put(self, name, path):
        """Writes beside the entry and renames, so that nobody sees half of it, and a link there is replaced."""
        for folder in (self.at, self.place()):
            make(folder)
        with naming(os.path.join(self.place(), file_of(name))):
            self.write(name, path)

    def write(self, name, path):
        handle, fresh = tempfile.mkstemp(prefix=".carry.", dir=self.place())
        try:
            with os.fdopen(handle, "wb") as target, open(path, "rb") as source:
                shutil.copyfileobj(source, target)
                target.flush()
                os.fsync(handle)
            os.chmod(fresh, 0o644)
            os.replace(fresh, os.path.join(self.place(), file_of(name)))
        except OSError:
            os.unlink(fresh)
            raise


def make(folder):
    """Makes a folder where it is not there, but none above it: what is not mounted is not written to."""
    with contextlib.suppress(FileExistsError):
        os.mkdir(folder)


class Remote(Folder):
    """A folder of another machine, HOST:PATH, by rsync: it is copied here first, without links and other files."""

    def __init__(self, *words):
        super().__init__(*words)
        self.remote, self.scratch = self.at.rstrip("/"), tempfile.TemporaryDirectory()
        self.at = self.scratch.name

    def rsync(self, *words, empty=()):
        return self.run(["rsync", "--timeout", str(int(self.seconds)), *words], empty=empty)

    def listed(self):
        below = f"{self.generation}/" if self.generation else ""
        rules = [f"--include=/{below}*{kind}" for kind in (STATES, FRAGMENTS, LAYERS)]
        rules += [f"--include=/{below}"] if below else []
        try:
            lines = self.rsync("--list-only", f"{self.remote}/").decode(errors="replace").split("\n")
            self.rsync("--recursive", "--no-links", "--no-devices", "--no-specials", f"--max-size={self.most}", *rules,
                       "--exclude=*", f"{self.remote}/", f"{self.at}/")
        except Fault as fault:
            if "No such file or directory" in str(fault):
                return set(), set()
            raise
        names, _ = super().listed()
        rows = [line.split(None, 4) for line in lines if line.startswith("d")]
        return names, {int(row[4]) for row in rows if len(row) == 5 and row[4].isdecimal()}

    def put(self, name, path):
        below = f"{self.remote}/{self.generation}" if self.generation else self.remote
        os.chmod(path, 0o644)
        if self.generation:  # the folder itself
            with tempfile.TemporaryDirectory() as empty:
                os.mkdir(f"{empty}/{self.generation}")
                self.rsync("--dirs", f"{empty}/{self.generation}", f"{self.remote}/")
        self.rsync("--checksum", "--perms", path, f"{below}/{file_of(name)}")


class Git(Carrier):
    """The branch of a clone, by what it has in its hub: neither the clone's own branch nor its files are touched."""

    def git(self, *words, **more):
        return self.run(["git", "-C", self.at, *words], **more)

    def text(self, *words, **more):
        return self.git(*words, **more).decode(errors="replace").strip()

    @contextlib.contextmanager
    def alone(self):
        with open(os.path.join(self.at, self.text("rev-parse", "--git-dir"), "carry.lock"), "ab") as lock:
            fcntl.flock(lock, fcntl.LOCK_EX)
            yield

    def fetched(self):
        """Gets the branch from the hub: its last commit; none, where the hub has no such branch yet."""
        self.branch = self.text("symbolic-ref", "--short", "HEAD")
        self.hub = (self.git("config", f"branch.{self.branch}.remote", empty=(1,)) or b"origin").decode().strip()
        merge = self.git("config", f"branch.{self.branch}.merge", empty=(1,))
        self.theirs = merge.decode().strip() if merge else f"refs/heads/{self.branch}"
        kept = "refs/carry/" + self.theirs.split("/", 2)[2]
        # A pattern: that the hub has no such branch is no fault then.
        self.git("fetch", "--quiet", "--no-tags", "--prune", self.hub, f"+{self.theirs}*:{kept}*")
        tip = self.git("rev-parse", "--quiet", "--verify", f"{kept}^{{commit}}", empty=(1, 128))
        return tip.decode().strip() if tip else None

    def tree(self, tip, folder=""):
        """The mode, hash, size and name of each entry of a folder of a commit."""
        rows = self.git("ls-tree", "-z", "-l", f"{tip}:{folder}", empty=(128,)) or b""
        for row in rows.decode("utf-8", "replace").split("\0")[:-1]:
            about, name = row.split("\t", 1)
            mode, _, key, size = about.split()
            yield mode, key, size, name

    def listed(self):
        with self.alone():
            tip = self.fetched()
        if tip is None:
            return set(), set()
        generations = {int(name) for mode, _, _, name in self.tree(tip) if mode == "040000" and name.isdecimal()}
        self.blobs = {}
        for mode, key, size, name in self.tree(tip, str(self.generation or "")):
            entry = entry_of(name)
            if entry is not None and self.is_entry(entry):
                if mode not in ("100644", "100755"):
                    self.passed.append(f"{name} is no regular file")
                elif int(size) > self.most:
                    self.passed.append(f"{entry} has more than {self.most} bytes")
                else:
                    self.blobs[entry] = key
        return set(self.blobs), generations

    def get(self, name, path):
        self.run_to(path, ["git", "-C", self.at, "cat-file", "blob", self.blobs[name]])
        return True

    def put(self, name, path):
        """Commits the entry on top of what the hub has, and pushes; again, where others have pushed meanwhile."""
        with self.alone(), tempfile.TemporaryDirectory() as scratch:
            key = self.text("hash-object", "-w", "--stdin", given=path)
            where = f"{self.generation}/{file_of(name)}" if self.generation else file_of(name)
            for left in range(5, 0, -1):
                commit = self.commit(self.fetched(), key, where, name, f"{scratch}/index-{left}")
                try:
                    if commit:
                        self.git("push", "--quiet", self.hub, f"{commit}:{self.theirs}")
                    return
                except Fault:
                    if left == 1:
                        raise

    def commit(self, tip, key, where, name, index):
        """A commit with the entry, on top of another; none, where that has it already."""
        env = {**os.environ, "GIT_INDEX_FILE": index}
        if not self.git("config", "user.email", empty=(1,)) and "GIT_AUTHOR_EMAIL" not in env:
            for role in ("AUTHOR", "COMMITTER"):
                env.update({f"GIT_{role}_NAME": name, f"GIT_{role}_EMAIL": f"{name}@{socket.gethostname()}"})
        if tip:
            self.git("read-tree", tip, env=env)
        self.git("update-index", "--add", "--replace", "--cacheinfo", f"100644,{key},{where}", env=env)
        tree = self.text("write-tree", env=env)
        if tip and self.text("rev-parse", f"{tip}^{{tree}}") == tree:
            return None
        return self.text("commit-tree", tree, *(["-p", tip] if tip else []), "-m", f"The state of {name}", env=env)


class Keys(Carrier):
    """A store of keys and values: HOST:PORT/PREFIX, an entry is the key PREFIX/NAME."""

    def __init__(self, *words):
        super().__init__(*words)
        scheme, mark, rest = self.at.partition("://")
        self.scheme, rest = (scheme, rest) if mark else ("", self.at)
        self.host, _, self.prefix = rest.partition("/")
        self.below = f"{self.prefix}/{self.generation}/" if self.generation else f"{self.prefix}/"

    def listed(self):
        names, generations = set(), set()
        for key in self.keys():
            first, slash, _ = key[len(self.prefix) + 1:].partition("/")
            if slash and first.isdecimal():
                generations.add(int(first))
            rest = key[len(self.below):]
            # Only what lies directly below belongs to this generation.
            if key.startswith(self.below) and "/" not in rest and self.is_entry(rest):
                names.add(rest)
        return names, generations


class Etcd(Keys):
    """etcd, by etcdctl: certificates and passwords by its environment (ETCDCTL_CACERT, _CERT, _KEY, _USER)."""

    def words(self, *words):
        ends = ",".join(f"{self.scheme or 'http'}://{host}" for host in self.host.split(","))
        return ["etcdctl", "--endpoints", ends, "--command-timeout", f"{int(self.seconds)}s", *words]

    @staticmethod
    def env():
        # etcdctl refuses to be told the endpoints twice.
        return {name: value for name, value in os.environ.items() if name != "ETCDCTL_ENDPOINTS"}

    def keys(self):
        out = self.run(self.words("get", "--prefix", "--keys-only", "--write-out=json", "--", f"{self.prefix}/"), env=self.env())
        return [base64.b64decode(row["key"]).decode("utf-8", "replace") for row in json.loads(out).get("kvs", [])]

    def get(self, name, path):
        self.run_to(path, self.words("get", "--print-value-only", "--", self.below + name), self.env())
        size = os.path.getsize(path)
        if size:
            os.truncate(path, size - 1)  # a line break stands behind what is printed
        return size > 0

    def put(self, name, path):
        out = self.run(self.words("put", "--", self.below + name), given=path, env=self.env())
        if out.strip() != b"OK":
            raise Fault(f"etcdctl: {out.decode(errors='replace').strip()}", 4)


class Redis(Keys):
    """redis, over its own protocol: a password by REDISCLI_AUTH (and a user by REDISCLI_USER); with TLS the authorities by
    SSL_CERT_FILE, and a certificate of one's own by REDIS_CERT and REDIS_KEY."""

    tls = False

    def ask(self, *words):
        """The reply to a command."""
        if not hasattr(self, "stream"):
            self.connect()
        parts = [word.encode() if isinstance(word, str) else word for word in words]
        try:
            self.stream.write(b"*%d\r\n" % len(parts))
            for part in parts:
                self.stream.write(b"$%d\r\n" % len(part))
                self.stream.write(part)
                self.stream.write(b"\r\n")
            self.stream.flush()
            return self.reply()
        except (OSError, ValueError) as error:
            raise Fault(f"redis: {error or 'the connection ended'}", 4) from error

    def connect(self):
        host, _, port = self.host.rpartition(":")
        try:
            peer = socket.create_connection((host, int(port)), timeout=self.seconds)
            if self.tls:
                context = ssl.create_default_context()
                if os.environ.get("REDIS_CERT"):
                    context.load_cert_chain(os.environ["REDIS_CERT"], os.environ.get("REDIS_KEY"))
                peer = context.wrap_socket(peer, server_hostname=host)
        except (OSError, ValueError) as error:
            raise Fault(f"redis: {error}", 4) from error
        self.stream = peer.makefile("rwb")
        if os.environ.get("REDISCLI_AUTH"):
            user = [os.environ["REDISCLI_USER"]] if os.environ.get("REDISCLI_USER") else []
            self.ask("AUTH", *user, os.environ["REDISCLI_AUTH"])

    def reply(self, level=0):
        line = self.stream.readline(65536)
        if not line.endswith(b"\r\n") or level > 2:
            raise ValueError("the connection ended")
        kind, rest = line[:1], line[1:-2]
        if kind == b"-":
            raise Fault(f"redis: {rest.decode(errors='replace')}", 4)
        if kind == b"*":
            return [self.reply(level + 1) for _ in range(int(rest))]
        if kind == b"$" and int(rest) >= 0:
            if int(rest) > self.most:
                del self.stream  # what comes is not read: the next command connects again
                raise TooLarge
            data = self.stream.read(int(rest) + 2)
            if len(data) != int(rest) + 2:
                raise ValueError("the connection ended")
            return data[:-2]
        return None if kind == b"$" else rest

    def keys(self):
        found, cursor = set(), "0"
        pattern = re.sub(r"([\\*?\[\]^])", r"\\\1", f"{self.prefix}/") + "*"
        while True:
            cursor, keys = self.ask("SCAN", cursor, "MATCH", pattern, "COUNT", "1000")
            found.update(key.decode("utf-8", "replace") for key in keys)
            if cursor == b"0":
                return found

    def get(self, name, path):
        data = self.ask("GET", self.below + name)
        if data is None:
            return False
        with open(path, "wb") as file:
            file.write(data)
        return True

    def put(self, name, path):
        with open(path, "rb") as file:
            self.ask("SET", self.below + name, file.read())


class RedisTls(Redis):
    tls = True


class Blob(Carrier):
    """A blob store, REMOTE:PATH of rclone's configuration."""

    def path(self, *names):
        return "/".join([self.at.rstrip("/"), *names]) if not self.at.endswith(":") else self.at + "/".join(names)

    def place(self, *names):
        return self.path(str(self.generation), *names) if self.generation else self.path(*names)

    def rows(self, path):
        # 3: there is no such folder.
        return json.loads(self.run(["rclone", "lsjson", path], empty=(3,)) or b"[]")

    def listed(self):
        generations = {int(row["Name"]) for row in self.rows(self.at) if row["IsDir"] and row["Name"].isdecimal()}
        names = set()
        for row in self.rows(self.place()):
            entry = None if row["IsDir"] else entry_of(row["Name"])
            if entry is not None and self.is_entry(entry):
                names.add(entry)
        return names, generations

    def get(self, name, path):
        self.run_to(path, ["rclone", "cat", self.place(file_of(name))])
        return True

    def put(self, name, path):
        self.run(["rclone", "copyto", path, self.place(file_of(name))])


KINDS = {"folder": Folder, "git": Git, "etcd": Etcd, "redis": Redis, "rediss": RedisTls, "blob": Blob}


def carrier_of(text, generation, most, seconds):
    """The carrier that a word names, as KIND:PLACE."""
    kind, mark, at = text.partition(":")
    if not mark or kind not in KINDS or not at:
        raise Fault(f"{text} is no carrier: it begins with {', '.join(f'{kind}:' for kind in KINDS)}", 1)
    is_remote = kind == "folder" and re.match(r"[^/]+:", at)
    return (Remote if is_remote else KINDS[kind])(at, generation, most, seconds)
