#!/usr/bin/env python3
"""Runs a command beside a PostgreSQL of its own: a new server in a new folder, which listens on a socket in that folder alone and goes
with the command. `psql` finds it, since PGHOST, PGUSER and PGDATABASE are set.

usage: tools/postgres/server.py COMMAND ..     (for example `tools/postgres/server.py bash`)

A server does not run as root: called by root it runs as the user postgres, or nobody. Where PostgreSQL is not installed the status is 69.
"""
import os
import pwd
import shutil
import signal
import subprocess
import sys
import tempfile
import time
from glob import glob

NOT_HERE = 69
USER = "vkg"
# Nothing has to outlive the folder, so nothing waits for the disk.
SETTINGS = {"listen_addresses": "", "fsync": "off", "synchronous_commit": "off", "full_page_writes": "off", "max_wal_size": "4GB",
            "unix_socket_permissions": "0700"}


def folder_of_programs():
    """The folder with `initdb` and `postgres`, the newest version of Debian's; None where they are not installed."""
    folders = sorted(glob("/usr/lib/postgresql/*/bin"), key=lambda path: int(path.split("/")[4]), reverse=True)
    found = shutil.which("initdb", path=os.pathsep.join([*folders, os.environ.get("PATH", "")]))
    return os.path.dirname(os.path.realpath(found)) if found and shutil.which("psql") else None


def user_of_server():
    """The user as which a server runs: one that is there where root asks, else None, the same user."""
    names = {one.pw_name for one in pwd.getpwall()}
    return next(name for name in ("postgres", "nobody") if name in names) if os.geteuid() == 0 else None


class Server:
    """A server for the time of a `with`; `environment` is what its clients need. `settings` are put above those of PostgreSQL."""

    def __init__(self, settings=()):
        self.programs, self.settings = folder_of_programs(), {**SETTINGS, **dict(settings)}
        self.folder = self.process = self.environment = None

    def start(self, *words):
        """Starts one of the programs, as the user of the server."""
        name = user_of_server()
        own = {"user": name, "group": pwd.getpwnam(name).pw_gid, "extra_groups": []} if name else {}
        with open(os.path.join(self.folder, "log"), "ab") as log:
            return subprocess.Popen([os.path.join(self.programs, words[0]), *words[1:]], cwd=self.folder, stdin=subprocess.DEVNULL,
                                    stdout=log, stderr=log, **own)

    def __enter__(self):
        self.folder = tempfile.mkdtemp(prefix="vkg-postgres-")
        try:
            self.run()
        except BaseException:
            self.__exit__()
            raise
        return self

    def run(self):
        """Makes a database and starts the server over it."""
        if name := user_of_server():
            shutil.chown(self.folder, name, pwd.getpwnam(name).pw_gid)
        data = os.path.join(self.folder, "data")
        if self.start("initdb", "-D", data, "-U", USER, "-A", "trust", "-E", "UTF8", "--locale=C", "--no-sync").wait() != 0:
            raise RuntimeError(self.log())
        words = [word for name, value in self.settings.items() for word in ("-c", f"{name}={value}")]
        self.process = self.start("postgres", "-D", data, "-k", self.folder, *words)
        self.environment = {**os.environ, "PGHOST": self.folder, "PGUSER": USER, "PGDATABASE": "postgres"}
        self.wait()

    def wait(self):
        """Waits until the server answers."""
        for _ in range(600):
            if self.process.poll() is not None:
                raise RuntimeError(self.log())
            if subprocess.run(["psql", "-X", "-Atc", "SELECT 1"], env=self.environment, capture_output=True, check=False).returncode == 0:
                return
            time.sleep(0.1)
        raise RuntimeError(self.log())

    def log(self):
        """What the programs told."""
        with open(os.path.join(self.folder, "log"), encoding="utf-8", errors="replace") as log:
            return log.read()

    def __exit__(self, *_):
        if self.process is not None and self.process.poll() is None:
            self.process.send_signal(signal.SIGINT)  # its clients are ended, too
            self.process.wait()
        shutil.rmtree(self.folder)


def main():
    """Runs the command, and ends as it does."""
    if len(sys.argv) < 2:
        sys.exit("usage: tools/postgres/server.py COMMAND ..")
    if folder_of_programs() is None:
        print("server.py: PostgreSQL is not installed", file=sys.stderr)
        sys.exit(NOT_HERE)
    with Server() as server:
        ended = subprocess.run(sys.argv[1:], env=server.environment, check=False)
    sys.exit(ended.returncode)


if __name__ == "__main__":
    main()
