"""Servers that a check by hand starts and ends on the loopback: three members of etcd, and PostgreSQL. Each is ended by its process id.

They are Debian's packages etcd-server, postgresql and python3-psycopg2; what is not there is installed by apt-get. If that cannot be, it is said and the check ends.
"""
import glob
import json
import os
import pwd
import shutil
import signal
import socket
import subprocess
import time
import urllib.request

SECONDS_TO_START = 120


def install(package, is_there):
    """Status 1 for the check if the package is not there and cannot be had."""
    if is_there():
        return
    print(f"{package} is installed by apt-get", flush=True)
    subprocess.run(["apt-get", "install", "-y", "--no-install-recommends", package], stdout=subprocess.DEVNULL, stderr=subprocess.DEVNULL, check=False, env={**os.environ, "DEBIAN_FRONTEND": "noninteractive"})
    if not is_there():
        raise SystemExit(f"{package} is not here, and apt-get cannot install it: nothing was tried")


def free_port():
    with socket.socket() as it:
        it.bind(("127.0.0.1", 0))
        return it.getsockname()[1]


def wait_until(is_up, what):
    for _ in range(SECONDS_TO_START * 20):
        if is_up():
            return
        time.sleep(0.05)
    raise SystemExit(f"{what} does not come up")


class Etcd:
    """Three members, each with a folder of its own."""

    def __init__(self, folder):
        install("etcd-server", lambda: shutil.which("etcd"))
        self.members = [f"member{number}" for number in (1, 2, 3)]
        self.ports = {name: (free_port(), free_port()) for name in self.members}
        self.folder, self.processes = folder, {}
        os.makedirs(folder, exist_ok=True)
        for name in self.members:
            self.start(name)
        wait_until(self.is_up, "etcd")

    def urls(self):
        return [f"http://127.0.0.1:{client}" for client, _ in self.ports.values()]

    def start(self, name):
        client, peer = self.ports[name]
        members = ",".join(f"{other}=http://127.0.0.1:{port}" for other, (_, port) in self.ports.items())
        with open(f"{self.folder}/{name}.log", "ab") as log:
            self.processes[name] = subprocess.Popen(
                ["etcd", "--name", name, "--data-dir", f"{self.folder}/{name}", "--initial-cluster", members, "--initial-cluster-state", "new",
                 "--listen-client-urls", f"http://127.0.0.1:{client}", "--advertise-client-urls", f"http://127.0.0.1:{client}",
                 "--listen-peer-urls", f"http://127.0.0.1:{peer}", "--initial-advertise-peer-urls", f"http://127.0.0.1:{peer}"],
                stdout=log, stderr=log)

    def changes(self):
        """How often a key was changed since it began: the revision that a read tells."""
        for url in self.urls():
            try:
                request = urllib.request.Request(f"{url}/v3/kv/range", json.dumps({"key": "AA=="}).encode())
                with urllib.request.urlopen(request, timeout=2) as answer:
                    return int(json.load(answer)["header"]["revision"])
            except OSError:
                pass
        return None

    def is_up(self):
        """Most members answer a read, which asks most of them."""
        return self.changes() is not None

    def restart(self, name):
        """A member is killed, and comes back."""
        self.processes[name].kill()
        self.processes[name].wait()
        self.start(name)

    def end(self):
        for process in self.processes.values():
            process.kill()
            process.wait()


class PostgreSQL:
    """A server on a folder of its own, as the user that the package made if this one is root, since it refuses to run as root."""

    def __init__(self, folder):
        install("postgresql", self.binaries)
        self.port, self.folder = free_port(), f"{folder}/data"
        self.how = {"user": "postgres", "group": "postgres", "extra_groups": []} if os.getuid() == 0 else {}
        os.makedirs(folder, exist_ok=True)
        if self.how:
            user = pwd.getpwnam("postgres")
            os.chown(folder, user.pw_uid, user.pw_gid)
        self.log = f"{folder}/log"
        with open(self.log, "ab") as log:
            subprocess.run([f"{self.binaries()}/initdb", "-D", self.folder, "-A", "trust", "-U", "postgres"], stdout=log, stderr=log, check=True, cwd=folder, **self.how)
        self.start()

    @staticmethod
    def binaries():
        found = sorted(glob.glob("/usr/lib/postgresql/*/bin"))
        return found[-1] if found else None

    @property
    def dsn(self):
        return f"host=127.0.0.1 port={self.port} user=postgres dbname=postgres"

    def start(self):
        self.process = None
        wait_until(self.is_started, "PostgreSQL")

    def is_started(self):
        """It ends at once if processes of one that was killed have its memory still; then it is started anew."""
        words = [f"{self.binaries()}/postgres", "-D", self.folder, "-p", str(self.port), "-k", "", "-c", "listen_addresses=127.0.0.1", "-c", "max_prepared_transactions=64"]
        if self.process is None or self.process.poll() is not None:
            with open(self.log, "ab") as log:
                self.process = subprocess.Popen(words, stdout=log, stderr=log, cwd=os.path.dirname(self.folder), **self.how)
        return self.is_up()

    def is_up(self):
        ran = subprocess.run([f"{self.binaries()}/pg_isready", "-q", "-h", "127.0.0.1", "-p", str(self.port)], check=False)
        return ran.returncode == 0

    def restart(self):
        """The first of its processes is killed, and the others end as they see that. Then it is started again."""
        self.process.kill()
        self.process.wait()
        self.start()

    def end(self):
        self.process.send_signal(signal.SIGINT)
        self.process.wait()
