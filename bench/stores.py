"""Other stores, which answer the same lines, and the processor seconds that they take for it."""

import os
import shutil
import signal
import subprocess
import time

HERE = os.path.dirname(os.path.abspath(__file__))
NOBODY = 65534
WINDOW = 64


def told(words):
    """What a program prints, or nothing where it is not there."""
    if not shutil.which(words[0]):
        return ""
    return subprocess.run(words, stdout=subprocess.PIPE, text=True, check=True).stdout.strip()


def compiled(folder, name, source, *words):
    """The program of this C source, or None where there is no compiler or no library."""
    program = os.path.join(folder, name)
    if not shutil.which("cc"):
        return None
    made = subprocess.run(["cc", "-O2", os.path.join(HERE, source), *words, "-o", program], stderr=subprocess.DEVNULL)
    return program if made.returncode == 0 else None


def removed(path):
    """The path, where nothing is any more, nor where a log of it may lie."""
    shutil.rmtree(path, ignore_errors=True)
    for end in ("", "-wal", "-shm"):
        if os.path.exists(path + end):
            os.remove(path + end)
    return path


class Called:
    """A store that a C program calls in its own process. What is counted begins behind its opening."""

    def __init__(self, name, folder, source, *words):
        self.name, self.program = name, compiled(folder, name, source, *words)
        self.path = os.path.join(folder, name + "-store")
        self.here = self.program is not None

    def load(self, source):
        """The seconds of the lines of a file, over no document."""
        removed(self.path)
        return self.ask(source)

    def flush(self, source):
        self.ask(source)

    def ask(self, source, window=WINDOW):
        """The same over the store as it is."""
        ran = subprocess.run([self.program, self.path, source, str(window)], stdout=subprocess.PIPE, check=True)
        return float(ran.stdout)


class Postgres:
    """A cluster of its own, with the settings that `initdb` writes. What is counted is its client's calls, and all processes of the
    server from its start to its end."""

    name = "PostgreSQL"

    def __init__(self, folder, none):
        """A cluster without documents, if there is a server; `none` is a file of no line."""
        self.none, self.bin = none, told(["pg_config", "--bindir"])
        self.client = compiled(folder, self.name, "postgres.c", "-I" + told(["pg_config", "--includedir"]), "-lpq")
        self.here = self.client is not None and os.path.exists(os.path.join(self.bin, "postgres"))
        self.folder = os.path.join(folder, "cluster")
        self.empty, self.data = os.path.join(self.folder, "empty"), os.path.join(self.folder, "data")
        self.user = {}
        if self.here:
            os.mkdir(self.folder)
            if os.getuid() == 0:
                self.leave_superuser(folder)
            words = [os.path.join(self.bin, "initdb"), "-D", self.empty, "-U", "postgres", "-A", "trust", "-E", "UTF8", "--no-locale"]
            subprocess.run(words, cwd=self.folder, stdout=subprocess.DEVNULL, check=True, **self.user)

    def leave_superuser(self, above):
        """Has the server run for nobody, since it refuses to run for the superuser."""
        self.user = {"user": NOBODY, "group": NOBODY, "extra_groups": []}
        os.chown(self.folder, NOBODY, NOBODY)
        os.chmod(above, 0o711)

    def load(self, source):
        """Nothing is written behind the last line, as by no other store: the server ends at once, and its log keeps what its
        memory has. A start and an end without lines are taken off."""
        taken = []
        for lines in (self.none, source):
            shutil.rmtree(self.data, ignore_errors=True)
            subprocess.run(["cp", "-a", self.empty, self.data], check=True)
            taken.append(self.run(lines, WINDOW, signal.SIGQUIT))
        return taken[1] - taken[0]

    def flush(self, source):
        self.ask(source)

    def ask(self, source, window=WINDOW):
        return self.run(source, window, signal.SIGINT)

    def run(self, source, window, end):
        """The seconds of the client, and of a server that this signal ends: it waits for its processes first, so that theirs are
        in its own."""
        words = [os.path.join(self.bin, "postgres"), "-D", self.data, "-k", self.folder, "-c", "listen_addresses="]
        with open(os.path.join(self.folder, "told"), "wb") as sink:
            server = subprocess.Popen(words, cwd=self.folder, stderr=sink, **self.user)
        try:
            self.wait_for(server)
            words = [self.client, f"host={self.folder} user=postgres", source, str(window)]
            ran = subprocess.run(words, stdout=subprocess.PIPE, check=True)
        finally:
            if server.poll() is None:
                server.send_signal(end)
                _, status, used = os.wait4(server.pid, 0)
                server.returncode = os.waitstatus_to_exitcode(status)
        return float(ran.stdout) + used.ru_utime + used.ru_stime

    def wait_for(self, server):
        """Until it takes connections, which it writes into a file: one that is refused would cost it time."""
        while self.state() != "ready":
            if server.poll() is not None:
                raise subprocess.CalledProcessError(server.returncode, server.args)
            time.sleep(0.01)

    def state(self):
        try:
            with open(os.path.join(self.data, "postmaster.pid"), encoding="utf-8") as lines:
                return lines.read().split("\n")[7].strip()
        except (FileNotFoundError, IndexError):
            return ""


def sqlite(folder, *words):
    return Called("SQLite", folder, "sqlite.c", "-lsqlite3", *words)


# Words for the compiler, with which a program parses what it is given, and answers as this store does.
PARSING = ("-DPARSE", "-lcjson")


def others(folder, none, *words):
    """Each of them, whether it is here or not."""
    yield sqlite(folder, *words)
    yield Called("LevelDB", folder, "levels.c", "-lleveldb", *words)
    yield Called("RocksDB", folder, "levels.c", "-DROCKSDB", "-lrocksdb", *words)
    yield Called("WiredTiger", folder, "wiredtiger.c", "-lwiredtiger", *words)
    yield Postgres(folder, none)
