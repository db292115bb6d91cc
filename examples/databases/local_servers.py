"""A PostgreSQL server and a Dask scheduler with workers, which run as long as an example needs them."""
import glob
import json
import os
import pwd
import shutil
import subprocess
import time


def owner():
    """Who PostgreSQL runs as: it does not run as root. `postgres` comes with Debian's package."""
    if os.getuid():
        return None
    for name in ("postgres", "nobody"):
        try:
            return pwd.getpwnam(name).pw_name
        except KeyError:
            pass
    raise OSError("PostgreSQL does not run as root, and there is no user postgres or nobody")


class PostgreSQL:
    """A server in a folder of its own, which listens on a Unix socket there and nowhere else. Settings are lines of its file of settings.
    Its programs are those of this machine, unless a folder is named."""

    def __init__(self, room, settings="", programs=None):
        self.folder, self.owner, self.settings = os.path.join(room, "postgresql"), owner(), settings
        found = [f"{programs}/initdb"] if programs else sorted(glob.glob("/usr/lib/postgresql/*/bin/initdb")) or [shutil.which("initdb")]
        if not found[-1]:
            raise OSError("there is no initdb: Debian has it in the package postgresql")
        self.programs = os.path.dirname(found[-1])
        self.environment = {"PGHOST": self.folder, "PGUSER": "postgres", "PGDATABASE": "postgres"}

    def call(self, program, *given):
        """Runs a program of the server as its owner. Its output goes to a file, since the server keeps it open."""
        words = [f"{self.programs}/{program}", "-D", f"{self.folder}/data", *given]
        if self.owner:
            words = ["runuser", "-u", self.owner, "--", *words]
        with open(f"{self.folder}/log", "a", encoding="utf-8") as log:
            ran = subprocess.run(words, stdout=log, stderr=log, cwd=self.folder, timeout=660)
        if ran.returncode:
            with open(f"{self.folder}/log", encoding="utf-8") as log:
                raise OSError(f"{program}: {log.read()[-800:]}")

    def __enter__(self):
        os.mkdir(self.folder)
        if self.owner:
            shutil.chown(self.folder, self.owner)
        self.call("initdb", "--username=postgres", "--auth=trust", "--no-locale", "--encoding=UTF8", "--no-sync")
        self.start(self.settings)
        return self

    def start(self, settings=""):
        with open(f"{self.folder}/data/postgresql.auto.conf", "w", encoding="utf-8") as file:
            file.write(settings)
        self.call("pg_ctl", "-w", "-o", f"-c listen_addresses='' -c unix_socket_directories='{self.folder}' -c fsync=off", "start")

    def restart(self, settings):
        self.call("pg_ctl", "-w", "-m", "fast", "stop")
        self.start(settings)

    def __exit__(self, *_):
        self.call("pg_ctl", "-w", "-m", "immediate", "stop")
        shutil.rmtree(self.folder)


class Network:
    """Network namespaces in place of machines: each has an address of its own, and reaches the others by a bridge. Needs root."""

    BRIDGE, ADDRESS = "uca-bridge", "10.78.61.{}"

    def __init__(self, count):
        self.names = [f"uca-{at}" for at in range(count)]
        self.host = self.ADDRESS.format(1)

    @staticmethod
    def ip(words):
        ran = subprocess.run(["ip", *words.split()], capture_output=True, text=True)
        if ran.returncode:
            raise OSError(f"ip {words}: {ran.stderr.strip()}")

    def __enter__(self):
        try:
            self.ip(f"link add {self.BRIDGE} type bridge")
            self.ip(f"address add {self.host}/24 dev {self.BRIDGE}")
            self.ip(f"link set {self.BRIDGE} up")
            for at, name in enumerate(self.names, 2):
                self.ip(f"netns add {name}")
                self.ip(f"link add {name}-end type veth peer name eth0 netns {name}")
                self.ip(f"link set {name}-end master {self.BRIDGE} up")
                self.ip(f"-n {name} address add {self.ADDRESS.format(at)}/24 dev eth0")
                self.ip(f"-n {name} link set eth0 up")
        except OSError:
            self.__exit__()
            raise
        return self

    def __exit__(self, *_):
        for words in [*(f"netns delete {name}" for name in self.names), f"link delete {self.BRIDGE}"]:
            subprocess.run(["ip", *words.split()], stderr=subprocess.DEVNULL)


class Workers:
    """A scheduler on this machine, and workers that are processes of their own and reach it by TCP, or each in a namespace of a network."""

    def __init__(self, python, room, environment, count, network=None):
        self.python, self.folder, self.environment, self.count = python, os.path.join(room, "dask"), environment, count
        self.host, self.names = (network.host, list(network.names)) if network else ("127.0.0.1", [])
        self.processes = []

    def start(self, module, *given, environment=None, name=None):
        words = [self.python, "-m", f"distributed.cli.dask_{module}", *given]
        if name:
            words = ["ip", "netns", "exec", name, *words]
        with open(f"{self.folder}/log", "a", encoding="utf-8") as log:
            self.processes.append(subprocess.Popen(words, env=environment or self.environment, stdout=log, stderr=log, cwd=self.folder))

    def add(self, first=None):
        """Adds a worker; a folder that is given comes first on its path."""
        path = f"{first}:{self.environment['PATH']}" if first else self.environment["PATH"]
        its = f"{self.folder}/worker-{len(self.processes)}"
        environment = {**self.environment, "PATH": path}
        name = self.names.pop(0) if self.names else None
        options = ["--nthreads", "1", "--nworkers", "1", "--no-dashboard", "--local-directory", its]
        self.start("worker", self.address, *options, environment=environment, name=name)

    def __enter__(self):
        os.mkdir(self.folder)
        about = f"{self.folder}/scheduler.json"
        self.start("scheduler", "--host", self.host, "--port", "0", "--no-dashboard", "--scheduler-file", about)
        for _ in range(600):
            if os.path.exists(about) and os.path.getsize(about):
                break
            time.sleep(0.1)
        else:
            self.__exit__()
            raise OSError("the scheduler of Dask did not start")
        with open(about, encoding="utf-8") as file:
            self.address = json.load(file)["address"]
        for _ in range(self.count):
            self.add()
        return self

    def __exit__(self, *_):
        for process in reversed(self.processes):
            process.terminate()
        for process in self.processes:
            try:
                process.wait(30)
            except subprocess.TimeoutExpired:
                process.kill()
                process.wait()
        shutil.rmtree(self.folder)
