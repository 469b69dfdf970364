"""A site's file, which is a state or a map of layers (`*.layers`): its lock, its generation, what is wrong with it, and how other
inputs are merged into it."""
import contextlib
import fcntl
import filecmp
import os
import shutil
import signal
import subprocess
import tempfile

from program import CUELAYERS, CUESTORE, MAP, REFUSED

SECONDS = 300  # for a run of the program
MOST_LINES = 1000  # of conflicts that are looked at: what a state says may have far more than it has bytes
LAYERS = ".layers"  # how the name of a map of layers ends
# How a line of a conflict ends. The last one of a report that memory ran out for is cut, and ends otherwise.
ENDS = (b" no value\n", b" label not allowed\n")


class Fault(Exception):
    """Why nothing can be done, and the status to end with."""

    def __init__(self, message, status):
        super().__init__(message)
        self.status = status


@contextlib.contextmanager
def locked(state):
    """Holds the lock of a site's file, while it is read and written. It stands on a file beside it, since the site's file
    itself is replaced by another one."""
    try:
        with open(f"{os.path.realpath(state)}.lock", "ab") as lock:
            fcntl.flock(lock, fcntl.LOCK_EX)
            yield
    except OSError as error:
        raise Fault(f"{error.filename or state} can't be written: {error.strerror}", 4) from error


@contextlib.contextmanager
def naming(path):
    """Lets a failure of the system in here name this file, which a write does not."""
    try:
        yield
    except OSError as error:
        error.filename = path
        raise


def number_file(state):
    """The file beside a site's file that has the number of its generation."""
    return f"{os.path.realpath(state)}.generation"


def generation_of(state):
    """The generation that a site's file belongs to; none, where it was made anew and no carrier has taken it since."""
    try:
        with open(number_file(state), encoding="ascii", errors="replace") as file:
            text = file.read().strip()
    except FileNotFoundError:
        return None
    if not text.isdecimal():
        raise Fault(f"{number_file(state)} has no number of a generation", 1)
    return int(text)


def keep_generation(state, number):
    """Writes the number beside the site's file, by a rename."""
    target = number_file(state)
    with naming(target), beside(target) as fresh:
        with open(fresh, "w", encoding="ascii") as file:
            file.write(f"{number}\n")
        put_in_place(fresh, target)


def check_generation(state, number):
    """Raises a fault, where the site's file belongs to another generation than this one. A file that belongs to none yet
    belongs to this one from now on."""
    if not os.path.exists(state):
        return
    with locked(state):
        known = generation_of(state) if is_there(state) else number
        if known is None:
            keep_generation(state, number)
        elif known < number:
            raise Fault(f"{state} is of generation {known}, and would bring back into generation {number} what was taken back: make "
                        f"it anew from the site's fragments: rm {state} && cuestore-add {state} FILE..", 1)
        elif known > number:
            raise Fault(f"{state} is of generation {known} already: go on with --generation {known}", 1)


def is_map(state):
    """Whether a site's file is a map of layers, by its name."""
    return state.endswith(LAYERS)


def started(state, words, **streams):
    """A process of the program for such a site's file, with no input, in a session of its own."""
    program = CUELAYERS if is_map(state) else CUESTORE
    try:
        return subprocess.Popen([program, *words], stdin=subprocess.DEVNULL, start_new_session=True, **streams)
    except OSError as error:
        raise Fault(f"the program {program} can't be run: {error.strerror}", 5) from error


def written(state, inputs, path):
    """Writes what inputs say together to a file, in the form of the site's file: none; or what the program says in its place, as
    the match of a refusal."""
    # A state goes to standard output. A map is written by its name, and standard output has a refusal alone.
    words = ["merge", "--", path, *inputs] if is_map(state) else ["state", "--", *inputs]
    said_to = f"{path}.said" if is_map(state) else path
    try:
        return ran(state, words, inputs, said_to)
    finally:
        for left in (said_to, f"{path}.lock") if is_map(state) else ():
            with contextlib.suppress(FileNotFoundError):
                os.unlink(left)


def ran(state, words, inputs, path):
    """Runs the program with its standard output to a file: none; or the match of the refusal there."""
    with open(path, "wb") as out, started(state, words, stdout=out, stderr=subprocess.PIPE) as process:
        try:
            faults = process.communicate(timeout=SECONDS)[1].decode(errors="replace").strip()
        except subprocess.TimeoutExpired:
            os.killpg(process.pid, signal.SIGKILL)
            return REFUSED.match(b"refused 24 Memory\n")  # it takes more than anybody has
    if process.returncode not in (0, 1):
        raise Fault(why_failed(inputs, path, faults or f"the program ended with {process.returncode}"), max(process.returncode, 4))
    if process.returncode == 0:
        return None
    with open(path, "rb") as file:
        file.seek(max(0, os.path.getsize(path) - 200))  # bytes of a state may stand before it, where memory ran out late
        refused = REFUSED.search(file.read())
    if not refused:
        raise Fault(faults or "the program gave no answer", 1)
    return refused


def why_failed(inputs, path, faults):
    """Why a run failed that read these inputs and wrote this file: it names the one that could not be read or written."""
    for name in inputs:
        if not os.access(name, os.R_OK) or os.path.isdir(name):
            return f"{name} can't be read: {faults}"
    left = shutil.disk_usage(os.path.dirname(path) or ".").free // 1024
    return f"its disk has {left} KiB left: {faults}" if left < 64 or left < os.path.getsize(path) // 1024 else faults


def is_there(state):
    """Whether there is a site's file, which begins as a state; a fault, where it does not."""
    try:
        with open(state, "rb") as file:
            mark = file.read(len(MAP) if is_map(state) else 1)
    except FileNotFoundError:
        return False
    except OSError as error:
        raise Fault(f"{state} can't be read: {error.strerror}", 4) from error
    if is_map(state) and mark != MAP:
        raise Fault(f"{state} is no map of layers", 1)
    if mark[:1] != b"\xfe":
        raise Fault(f"{state} is no state" + (", but maybe a fragment: cuestore-add SITE.state FILE" if mark else ": it is empty"), 1)
    return True


def check(state):
    """Raises a fault, where the site's file is not there, or is no whole state."""
    if not is_there(state):
        raise Fault(f"{state} is not there: {'cuelayers put' if is_map(state) else 'cuestore-add'} makes it of fragments", 1)
    with tempfile.NamedTemporaryFile() as scratch:
        refused = written(state, [state], scratch.name)
    if refused:
        raise own_fault(state, refused)


def own_fault(state, refused):
    return Fault(f"{state}, the file of this site itself, is no whole state ({said(refused)}): remove it, and make it anew from "
                 "the site's fragments or by a pull", 1)


def said(refused):
    return refused[0].decode().strip()


def conflicts_of(file, state):
    """The conflicts of a file of the site's form, as lines: the first ones, where there are very many, or memory runs out."""
    found = set()
    with started(state, ["report", "--", file], stdout=subprocess.PIPE, stderr=subprocess.DEVNULL) as process:
        for line in process.stdout:
            # Conflicts come first.
            if not (line.startswith(b"conflict ") and line.endswith(ENDS)) or len(found) == MOST_LINES:
                os.killpg(process.pid, signal.SIGKILL)
                break
            found.add(line.decode().rstrip("\n"))
    return found


class Merged:
    """What came of a merge: the names of what was merged, what was refused and why, whether anything was new, and the
    conflicts that are new."""

    def __init__(self):
        self.names, self.refused, self.is_new, self.conflicts = [], [], False, []


def merge_into(state, inputs, generation=None):
    """Merges inputs, as names and files, into a site's file, by one run of the program: what is refused is left out, and
    where nothing is new the file is left as it is. A file that is made anew belongs to the generation; without one it belongs
    to none yet, unless a state is among the inputs."""
    merged, inputs = Merged(), list(inputs)
    with locked(state), contextlib.ExitStack() as stack:
        known = [state] if is_there(state) else []
        target = os.path.realpath(state)
        stack.enter_context(naming(state))
        fresh = stack.enter_context(beside(target))
        while inputs and (refused := merge_to(state, [*known, *(path for _, path in inputs)], fresh)):
            at = int(refused[4]) - len(known) - 1 if refused[4] else first_refused(state, known, inputs, fresh)
            if at == -1:
                raise own_fault(state, refused)
            if at is None:
                raise Fault(f"{state} was not written: {said(refused)}", 1)
            merged.refused.append((inputs.pop(at)[0], said(refused).rsplit(" in ", 1)[0]))
        merged.names = [name for name, _ in inputs]
        merged.is_new = bool(inputs) and not (known and filecmp.cmp(fresh, target, shallow=False))
        if merged.is_new:
            merged.conflicts = sorted(conflicts_of(fresh, state) - (conflicts_of(state, state) if known else set()))
            if not known and generation is not None:
                keep_generation(state, generation)
            elif not known and not any(begins_as_state(path) for _, path in inputs):
                with contextlib.suppress(FileNotFoundError):
                    os.unlink(number_file(state))
            put_in_place(fresh, target)
    return merged


def merge_to(state, inputs, fresh):
    """The same as `written`, for a new file that is to take the place of the site's: a fault of a device names that one."""
    try:
        return written(state, inputs, fresh)
    except Fault as fault:
        if fault.status != 4:
            raise
        raise Fault(f"{state} was not written: {fault}", fault.status) from fault


def begins_as_state(path):
    with open(path, "rb") as file:
        return file.read(1) == b"\xfe"


def first_refused(state, known, inputs, fresh):
    """The first input that is refused also alone, where a refusal is of no single one, as want of memory is."""
    return next((at for at, (_, path) in enumerate(inputs) if len(inputs) > 1 and written(state, [*known, path], fresh)), None)


@contextlib.contextmanager
def beside(target):
    """A new file in the folder of another one, which is removed unless it takes that one's place."""
    handle, path = tempfile.mkstemp(prefix=f".{os.path.basename(target)}.", dir=os.path.dirname(target) or ".")
    os.close(handle)
    try:
        yield path
    finally:
        if os.path.exists(path):
            os.unlink(path)


def put_in_place(fresh, target):
    """Makes a new file durable and puts it in the place of another one, with its mode, owner and group."""
    try:
        old = os.stat(target)
        os.chmod(fresh, old.st_mode & 0o7777)
        with contextlib.suppress(OSError):
            os.chown(fresh, old.st_uid, old.st_gid)
    except FileNotFoundError:
        mask = os.umask(0)
        os.umask(mask)
        os.chmod(fresh, 0o666 & ~mask)
    for path, flags in ((fresh, os.O_RDONLY), (os.path.dirname(target) or ".", os.O_RDONLY | os.O_DIRECTORY)):
        if path != fresh:
            os.replace(fresh, target)
        handle = os.open(path, flags)
        os.fsync(handle)
        os.close(handle)
