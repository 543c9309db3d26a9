"""Machines for what RUNBOOK.md has operators do: each is a root file system of its own over that of the machine that runs the tests,
with its own processes and its own network."""

from __future__ import annotations

import functools
import os
import shutil
import subprocess
import time
from pathlib import Path
from typing import Optional

HOME = Path(__file__).resolve().parent
# The folders of a machine that other machines have too.
CHECKOUT, SHARED = "/srv/zenithlamb", "/srv/shared"
PATH = "/usr/local/sbin:/usr/local/bin:/usr/sbin:/usr/bin:/sbin:/bin"

# Begins a machine in a folder: what it changes is in memory. The first process waits until its end.
BEGIN = f"""
cd "$1"
mount -t tmpfs -o mode=0755 tmpfs .
mkdir upper work root
mount -t overlay -o lowerdir=/,upperdir=upper,workdir=work overlay root
mount -t tmpfs -o mode=0755 tmpfs root/run
mount -t tmpfs -o mode=1777 tmpfs root/tmp
mount -t proc proc root/proc
mount --rbind /dev root/dev
mkdir -p root{CHECKOUT} root{SHARED}
mount --bind "$2" root{CHECKOUT}
mount --bind "$3" root{SHARED}
ip link set lo up
install -D -m 0755 "$4/systemctl" root/usr/local/sbin/systemctl
printf '#!/bin/sh\\n' | install -m 0755 /dev/stdin root/usr/local/sbin/apt-get
exec chroot root sh -c 'touch /run/begun && exec sleep infinity'
"""
# The processor for which the programs of the checkout are built, if it isn't that of this machine.
PROCESSOR = [f"CONIKS_CPU={it}" for it in [os.environ.get("CONIKS_CPU")] if it]
WORDS = ["unshare", "--mount", "--net", "--pid", "--fork", "--kill-child"]


@functools.cache
def missing() -> str:
    """Why no machine can be made here, if none can."""
    if lacking := [it for it in ["unshare", "nsenter", "chroot", "ip"] if not shutil.which(it)]:
        return f"{lacking[0]} is missing"
    tried = "mount -t tmpfs tmpfs /mnt && cd /mnt && mkdir u w r && mount -t overlay -o lowerdir=/,upperdir=u,workdir=w overlay r"
    ran = subprocess.run([*WORDS, "sh", "-ec", tried], capture_output=True, text=True)
    return f"no root file system can be made, which takes root: {ran.stderr.strip()}" if ran.returncode else ""


class Machine:
    """A machine. Its packages are those that are installed here, and `apt-get` does nothing. It has a network of its own, or that of
    another one."""

    def __init__(self, room: Path, checkout: Path, shared: Path, network: Optional[Machine] = None):
        room.mkdir()
        places = [str(it) for it in (room, checkout, shared, HOME)]
        within = ["nsenter", "--target", network._pid, "--net"] if network else []
        words = [it for it in WORDS if not network or it != "--net"]
        self._process = subprocess.Popen([*within, *words, "sh", "-euc", BEGIN, "machine", *places])
        children = Path(f"/proc/{self._process.pid}/task/{self._process.pid}/children")
        until = time.monotonic() + 60
        self._pid: str = ""
        while not (self._pid and Path(f"/proc/{self._pid}/root/run/begun").exists()):
            assert time.monotonic() < until and self._process.poll() is None, "the machine did not begin"
            time.sleep(0.01)
            self._pid = children.read_text().strip()
        self.root = Path(f"/proc/{self._pid}/root")

    def run(self, text: str, user: str = "root") -> subprocess.CompletedProcess[str]:
        """Runs commands of an operator, whose files are nobody else's unless a command says otherwise."""
        entering = ["nsenter", "--target", self._pid, "--mount", "--net", "--pid", "--root", f"--wd={self.root}{CHECKOUT}"]
        cleared = ["env", "-i", f"PATH={PATH}", f"HOME=/{user}", "LC_ALL=C.UTF-8", *PROCESSOR]
        words = [*entering, "runuser", "-u", user, "--", *cleared, "bash", "-euo", "pipefail", "-c", f"umask 0077\n{text}"]
        return subprocess.run(words, capture_output=True, text=True, timeout=60)

    def do(self, text: str, user: str = "root") -> str:
        """Runs commands that succeed, and returns what they print."""
        ran = self.run(text, user)
        assert ran.returncode == 0, f"{text}\nstatus {ran.returncode}\n{ran.stdout}{ran.stderr}\n{self.printed()}"
        return ran.stdout

    def printed(self) -> str:
        """The end of what the services have said."""
        files = [self.root / f"var/log/coniks-{it}" for it in ("directory", "audit")]
        return "".join(it.read_text()[-2000:] for it in files if it.exists())

    def end(self) -> None:
        self._process.kill()
        self._process.wait()
