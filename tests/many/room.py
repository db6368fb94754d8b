"""The namespaces' own furniture: the loopback, a name, an empty /run, small disks; and processes that are ended again."""

import fcntl
import os
import pathlib
import signal
import socket
import struct
import subprocess
import time

SIOCSIFFLAGS, SIOCSIFADDR, UP = 0x8914, 0x8916, 1


def own():
    """Whether this runs in namespaces of its own; `run` says so."""
    return bool(os.environ.get("OWN"))


def furnish():
    """What daemons look for, and nothing of the machine's."""
    with socket.socket(socket.AF_INET, socket.SOCK_DGRAM) as any_socket:
        fcntl.ioctl(any_socket, SIOCSIFFLAGS, struct.pack("16sh14x", b"lo", UP))
        # Slurm asks for names by AI_ADDRCONFIG, to which 127.0.0.1 alone is no address.
        fcntl.ioctl(any_socket, SIOCSIFADDR, struct.pack("16sHxx4s8x", b"lo:1", socket.AF_INET, socket.inet_aton("127.0.0.2")))
    small_disk("/run", "64m")
    for name in ("munge", "sshd"):
        os.mkdir(f"/run/{name}", 0o755)
    socket.sethostname("office")
    pathlib.Path("/run/hosts").write_text("127.0.0.1 localhost office\n")
    subprocess.run(["mount", "--bind", "/run/hosts", "/etc/hosts"], check=True)


def small_disk(folder, size):
    os.makedirs(folder, exist_ok=True)
    subprocess.run(["mount", "-t", "tmpfs", "-o", f"size={size},mode=755", "tmpfs", folder], check=True)


def fill(folder):
    """Leaves no room in a folder; answers the file to remove."""
    path = os.path.join(folder, "filling")
    with open(path, "wb", buffering=0) as out:
        try:
            while True:
                out.write(bytes(4096))
        except OSError:
            return pathlib.Path(path)


def until(what, happens, seconds=30):
    """Waits until something holds."""
    end = time.monotonic() + seconds
    while not happens():
        if time.monotonic() > end:
            raise TimeoutError(f"{what}: not within {seconds} seconds")
        time.sleep(0.02)


def listening(port):
    with socket.socket() as probe:
        return probe.connect_ex(("127.0.0.1", port)) == 0


def descendants(process):
    """A process's number and those of all that it started."""
    parents = {}
    for name in filter(str.isdigit, os.listdir("/proc")):
        try:
            with open(f"/proc/{name}/stat") as stat:
                parents[int(name)] = int(stat.read().rsplit(")", 1)[1].split()[1])
        except OSError:
            continue
    found = [process]
    for one in found:
        found += [child for child, parent in parents.items() if parent == one]
    return found


def end(process):
    """Ends a process that was started here, and all below it."""
    for number in descendants(process.pid):
        try:
            os.kill(number, signal.SIGKILL)
        except ProcessLookupError:
            pass
    process.wait(timeout=30)
