"""Makes hosts of this machine for trials of `--hosts`, by sshd of its own on 127.0.0.1.

A host is a key whose login has a home of its own below the folder of the trial, and may have
another shell. `shared` has the home of this host, before `silent` is a proxy that can stop passing
bytes, `dying` has an sshd of its own, and at `dead` nobody listens. A program that has to fail on
`noexec` knows it by its home.
"""
import contextlib, os, pathlib, select, shutil, signal, socket, subprocess, threading, time

PATH = "/usr/local/sbin:/usr/local/bin:/usr/sbin:/usr/bin:/sbin:/bin"
SSHD = shutil.which("sshd", path=PATH)
SHELLS = {"tcsh": shutil.which("tcsh"), "fish": shutil.which("fish")}
NAMES = ["good", "shared", "noexec", "silent", "dying", "dead", *SHELLS]
# A directory that sshd wants to see at each login if root runs it. It stays, since other trials may
# use it at the same time.
SEPARATION = pathlib.Path("/run/sshd")
# Templates of the files of sshd, ssh and Slurm, and what a login runs.
CONFIGS = pathlib.Path(__file__).with_name("configs")


def config(name, /, **values):
    return (CONFIGS / name).read_text().format(**values)


def free_port():
    with socket.create_server(("127.0.0.1", 0)) as server:
        return server.getsockname()[1]


class Proxy(threading.Thread):
    """Passes what comes to `port` on to another one, until `silence` is set."""

    def __init__(self, to):
        super().__init__(daemon=True)
        self.to, self.silence, self.pairs = to, threading.Event(), {}
        self.server = socket.create_server(("127.0.0.1", 0))
        self.port = self.server.getsockname()[1]

    def run(self):
        while not self.silence.is_set():
            for ready in select.select([self.server, *self.pairs], [], [], 0.1)[0]:
                if ready is self.server:
                    self.add_pair()
                elif ready in self.pairs:
                    self.pass_on(ready)

    def add_pair(self):
        one = self.server.accept()[0]
        other = socket.create_connection(("127.0.0.1", self.to))
        self.pairs |= {one: other, other: one}

    def pass_on(self, source):
        target = self.pairs[source]
        with contextlib.suppress(OSError):
            if data := source.recv(1 << 16):
                target.sendall(data)
                return
        for end in (source, target):
            del self.pairs[end]
            end.close()

    def close(self):
        self.silence.set()
        self.join()
        for end in [self.server, *self.pairs]:
            end.close()


def parents():
    """Returns the parents of all processes, by the ids of these."""
    found = {}
    for path in pathlib.Path("/proc").glob("[0-9]*/stat"):
        with contextlib.suppress(OSError):
            found[int(path.parent.name)] = int(path.read_text().rpartition(")")[2].split()[1])
    return found


def kill_all(pid):
    """Kills a process and all that descend from it."""
    of_process, found = parents(), {pid}
    while more := {child for child, parent in of_process.items() if parent in found} - found:
        found |= more
    for one in found:
        with contextlib.suppress(ProcessLookupError):
            os.kill(one, signal.SIGKILL)


class SshHosts:
    """The hosts of a trial: a context, in which they are up."""

    def __init__(self, folder):
        self.folder, self.jobs = pathlib.Path(folder), {}

    def __enter__(self):
        self.folder.mkdir()
        for name in ["key", *NAMES]:
            subprocess.run(["ssh-keygen", "-q", "-t", "ed25519", "-N", "", "-f",
                            self.folder / name], check=True)
        (self.folder / "login").write_text(config("login.sh", path=PATH))
        (self.folder / "authorized").write_text("".join(map(self.authorized, NAMES)))
        if os.getuid() == 0:
            SEPARATION.mkdir(exist_ok=True)
        ports = {"dead": free_port(), "dying": self.start_sshd("dying")}
        port = self.start_sshd("sshd")
        self.proxy = Proxy(port)
        self.proxy.start()
        ports["silent"] = self.proxy.port
        (self.folder / "config").write_text("".join(
            config("ssh_host_config", name=name, port=ports.get(name, port), folder=self.folder)
            for name in NAMES) + config("ssh_hosts_config"))
        return self

    def __exit__(self, *_):
        self.proxy.close()
        for job in self.jobs.values():
            kill_all(job.pid)
            job.wait()

    def home(self, name):
        """Returns the home of a host. This one is called `here`."""
        home = self.folder / f"home-{'here' if name == 'shared' else name}"
        home.mkdir(exist_ok=True)
        return home

    def authorized(self, name):
        """Returns the line of a key, with what its login runs."""
        words = ["sh", self.folder / "login", self.home(name), SHELLS.get(name) or "/bin/sh"]
        key = (self.folder / f"{name}.pub").read_text()
        return f'command="{" ".join(map(str, words))}" {key}'

    def start_sshd(self, name):
        """Starts an sshd. Returns its port, once it listens."""
        port, path = free_port(), self.folder / f"{name}.config"
        path.write_text(config("sshd_config", port=port, folder=self.folder))
        self.jobs[name] = subprocess.Popen([SSHD, "-D", "-e", "-f", path], cwd="/",
                                           stderr=subprocess.DEVNULL)
        for _ in range(6000):
            with contextlib.suppress(ConnectionRefusedError):
                socket.create_connection(("127.0.0.1", port)).close()
                return port
            time.sleep(0.01)
        raise ConnectionRefusedError(f"no sshd at {port}")

    def environment(self):
        return {"HOME": str(self.home("here")), "PARALLEL_SSH": f"ssh -F {self.folder}/config"}

    def left(self):
        """Returns what is left in the temporary folders of GNU parallel on all hosts."""
        return [str(path.relative_to(self.folder))
                for path in self.folder.glob("home-*/.parallel/tmp/*") if path.name != "sshlogin"]

    def kill(self, name):
        kill_all(self.jobs[name].pid)
