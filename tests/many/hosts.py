"""sshd on ports of the loopback, each with its own home folder, and keys that only this test has."""

import contextlib
import os
import shutil
import subprocess

import room

# A host starts in its home; where it does not share the office's folder, an empty one stands in its place there.
DAEMON = """
Port {port}
ListenAddress 127.0.0.1
HostKey {keys}/host
AuthorizedKeysFile {keys}/user.pub
StrictModes no
UsePAM no
PasswordAuthentication no
PidFile none
Subsystem sftp internal-sftp
SetEnv {variables}
ForceCommand cd {home} && eval "$SSH_ORIGINAL_COMMAND"
"""
CLIENT = """
Host {name}
    HostName 127.0.0.1
    Port {port}
    IdentityFile {keys}/user
    IdentitiesOnly yes
    IdentityAgent none
    UserKnownHostsFile {keys}/known
    GlobalKnownHostsFile none
    StrictHostKeyChecking yes
    BatchMode yes
    ConnectTimeout 5
"""
PORTS = {"one": 16022, "two": 16023}


class Hosts:
    """The hosts `one` and `two`; `ssh` in `bin` knows them and nothing else."""

    def __init__(self, folder, office, shared):
        self.folder, self.office, self.shared, self.running = folder, office, shared, {}
        self.path = os.environ["PATH"]
        for name in ("keys", "bin"):
            (folder / name).mkdir(parents=True, exist_ok=True)
        self._keys()
        self._client()

    def _keys(self):
        keys = self.folder / "keys"
        for name in ("host", "user"):
            subprocess.run(["ssh-keygen", "-q", "-t", "ed25519", "-N", "", "-f", str(keys / name)], check=True)
        public = (keys / "host.pub").read_text()
        (keys / "known").write_text("".join(f"[127.0.0.1]:{port} {public}" for port in PORTS.values()))

    def _client(self):
        config, command = self.folder / "config", self.folder / "bin" / "ssh"
        config.write_text("".join(CLIENT.format(name=name, port=port, keys=self.folder / "keys") for name, port in PORTS.items()))
        command.write_text(f'#!/bin/sh\nexec /usr/bin/ssh -F {config} "$@"\n')
        command.chmod(0o755)

    def home(self, name):
        return self.folder / f"home-{name}"

    def begin(self, name, path=None):
        """Starts a host; `path` is where it looks for programs."""
        config = self.folder / f"{name}.sshd"
        known = {word: text for word, text in os.environ.items() if word.startswith("BODHRANHAZE_")}
        variables = " ".join(f'"{word}={text}"' for word, text in {**known, "PATH": path or self.path}.items())
        config.write_text(DAEMON.format(port=PORTS[name], keys=self.folder / "keys", home=self.home(name), variables=variables))
        if not self.home(name).exists():
            room.small_disk(self.home(name), "2m")
        hide = "true" if self.shared else f"mount -t tmpfs tmpfs {self.office}"
        daemon = f"{hide} && exec {shutil.which('sshd')} -D -e -f {config}"
        with open(self.folder / f"{name}.log", "a") as log:
            self.running[name] = subprocess.Popen(["unshare", "--mount", "sh", "-c", daemon], stderr=log)
        room.until(f"the host {name} listens", lambda: room.listening(PORTS[name]))

    def end(self, name):
        """The host is gone in the midst of whatever it does."""
        room.end(self.running.pop(name))


@contextlib.contextmanager
def hosts(folder, office, shared):
    both = Hosts(folder, office, shared)
    try:
        for name in PORTS:
            both.begin(name)
        os.environ["PATH"] = f"{folder}/bin:{both.path}"
        yield both
    finally:
        os.environ["PATH"] = both.path
        for name in list(both.running):
            both.end(name)
