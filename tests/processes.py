"""The processes of one run, from Linux's /proc: those with its mark in their environment, and all that these start.

A run has a folder of its own for what is made meanwhile, where TMPDIR points. It goes when the run ends.
"""
import os
import shutil
import signal
import subprocess
import sys
import tempfile
import threading
import time

MARK = "ART_RUN"
# Whoever starts a process in a thread of its own holds this meanwhile. A run that is ended takes it for good.
STARTS = threading.Lock()
TICKS = os.sysconf("SC_CLK_TCK")
# The words before a command that leave most of a processor to others. (Linux may weigh sessions, and not processes.)
GIVES_WAY = ["sh", "-c", 'echo 5 2>/dev/null >/proc/self/autogroup; exec nice -n 5 "$@"', "sh"]
# (Linux's PF_KTHREAD, among the flags of a process)
KERNEL_THREAD = 0x0020_0000


def begin():
    """Marks this process' children as a run's, unless they are one's already. Returns its folder if it is made here."""
    if MARK in os.environ:
        return None
    room = tempfile.mkdtemp(prefix="art-run-")
    os.chmod(room, 0o711)  # (rt runs what it built as nobody)
    os.environ[MARK], os.environ["TMPDIR"], tempfile.tempdir = room, room, room
    return room


def read(pid, name):
    with open(f"/proc/{pid}/{name}", "rb") as file:
        return file.read()


class Process:
    """What /proc says of a process: times in seconds, its own and those of its children that it has waited for."""

    def __init__(self, pid):
        fields = read(pid, "stat").rpartition(b")")[2].split()
        self.pid, self.parent, self.state, self.start = int(pid), int(fields[1]), fields[0], fields[19]
        self.of_kernel = bool(int(fields[6]) & KERNEL_THREAD)
        self.own, self.waited = (sum(map(int, fields[at : at + 2])) / TICKS for at in (11, 13))

    def text(self, name):
        try:
            if name == "cwd":
                return os.readlink(f"/proc/{self.pid}/cwd")
            return read(self.pid, name).decode(errors="replace")
        except OSError:
            return ""


def of_run():
    """Returns the run's processes by number, without this one and those that it stands under."""
    mark, every, found = f"{MARK}={os.environ[MARK]}", {}, {}
    for pid in filter(str.isdigit, os.listdir("/proc")):
        try:
            every[int(pid)] = Process(pid)
        except OSError:
            continue
    above, at = set(), os.getpid()
    while at in every:
        above.add(at)
        at = every[at].parent
    for pid, it in every.items():
        if pid in above or it.of_kernel or it.state == b"Z":
            continue
        if mark in it.text("environ").split("\0"):
            found[pid] = it
    # (what a program was given a new environment still stands under one that is marked)
    changed = True
    while changed:
        more = {p: it for p, it in every.items() if p not in found and p not in above and it.state != b"Z"}
        more = {p: it for p, it in more.items() if it.parent in found or it.parent == os.getpid()}
        found.update(more)
        changed = bool(more)
    return found


def end_all(seconds=10):
    """Ends all processes of the run at once. They are stopped first, so that none starts another meanwhile."""
    until, found = time.monotonic() + seconds, {}
    while time.monotonic() < until:
        more = {pid: it.start for pid, it in of_run().items() if found.get(pid) != it.start}
        for pid in more:
            send(pid, signal.SIGSTOP)
        found.update(more)
        if not more:
            break
    for pid, start in found.items():
        if lives(pid, start):
            send(pid, signal.SIGKILL)
    while time.monotonic() < until and any(lives(*it) for it in found.items()):
        time.sleep(0.01)


def lives(pid, start):
    try:
        it = Process(pid)
    except OSError:
        return False
    return it.start == start and it.state != b"Z"


def send(pid, number):
    try:
        os.kill(pid, number)
    except OSError:
        pass


def put_back(room):
    """Gives the crates back what rt ci had set aside of theirs while it proved from nothing, where it was ended."""
    for aside in [".git/rt-aside", *(f"{room}/{it}" for it in os.listdir(room) if it.startswith("rt-aside-"))]:
        for name in os.listdir(aside) if os.path.isdir(aside) else ():
            for part in ("incremental", "rlib"):
                kept, to = f"{aside}/{name}/{part}", f"crates/{name}/out/{part}"
                if os.path.isdir(kept) and os.path.isdir(f"crates/{name}") and not os.path.exists(to):
                    os.makedirs(os.path.dirname(to), exist_ok=True)
                    shutil.move(kept, to)


def when_and_where():
    """The date, and the commit that was tried."""
    how = {"stdout": subprocess.PIPE, "stderr": subprocess.DEVNULL, "text": True}
    commit = subprocess.run(["git", "describe", "--always", "--dirty"], **how).stdout.strip()
    return f"{time.strftime('%Y-%m-%d')}, commit {commit or 'unknown'}"


def end_by_signals(room):
    """On Ctrl-C, or where it is asked to end, the run ends at once, all of it, with status 130."""

    def end(*_):
        for number in (signal.SIGINT, signal.SIGTERM, signal.SIGHUP):
            signal.signal(number, signal.SIG_IGN)
        print(f"{os.path.basename(sys.argv[0])}: stopped", file=sys.stderr, flush=True)
        STARTS.acquire()
        end_all()
        if room:
            put_back(room)
            shutil.rmtree(room, ignore_errors=True)
        os._exit(130)

    for number in (signal.SIGINT, signal.SIGTERM, signal.SIGHUP):
        signal.signal(number, end)
