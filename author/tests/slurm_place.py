"""Runs a Slurm of one node, without systemd and with all that it writes in a folder, for trials."""
import contextlib, getpass, os, pathlib, shutil, socket, subprocess

from .ssh_hosts import PATH, config, free_port, kill_all
from .trial import SECONDS, wait_until

SERVERS = {name: shutil.which(name, path=PATH) for name in ["munged", "slurmctld", "slurmd"]}


class Slurm:
    """A Slurm: a context, in which it is up."""

    def __init__(self, folder):
        self.folder, self.servers = pathlib.Path(folder), []

    def __enter__(self):
        for name in [".", "munge", "state", "spool", "temporary"]:
            (self.folder / name).mkdir()
        (self.folder / "munge/key-file").write_bytes(os.urandom(1024))
        (self.folder / "munge/key-file").chmod(0o400)
        (self.folder / "slurm.conf").write_text(config(
            "slurm.conf", host=socket.gethostname().partition(".")[0], user=getpass.getuser(),
            ports=[free_port(), free_port()], folder=self.folder, processors=os.cpu_count()))
        of_munge = [f"--{name}={self.folder}/munge/{name}"
                    for name in ["key-file", "pid-file", "log-file", "seed-file"]]
        try:
            self.start("munged", "--foreground", "--force", f"--socket={self.folder}/socket",
                       *of_munge)
            wait_until((self.folder / "socket").exists)
            self.start("slurmctld", "-D")
            self.start("slurmd", "-D")
            wait_until(lambda: self.run("sinfo", "--noheader", "--format=%t") == "idle\n")
        except BaseException:
            self.__exit__()
            raise
        return self

    def __exit__(self, *_):
        with contextlib.suppress(subprocess.SubprocessError):
            self.run("scancel", f"--user={getpass.getuser()}")
            wait_until(lambda: not self.queue(), seconds=10)
        for server in reversed(self.servers):
            kill_all(server.pid)
            server.wait()

    def environment(self):
        """Returns the variables for the commands of Slurm, and for its jobs."""
        return {"SLURM_CONF": f"{self.folder}/slurm.conf", "TMPDIR": f"{self.folder}/temporary"}

    def start(self, name, *words):
        with (self.folder / f"{name}.log").open("wb") as log:
            self.servers.append(subprocess.Popen(
                [SERVERS[name], *words], env={**os.environ, **self.environment()},
                stdin=subprocess.DEVNULL, stdout=log, stderr=log))

    def run(self, *words, **options):
        return subprocess.run(words, env={**os.environ, **self.environment()}, text=True,
                              stdin=subprocess.DEVNULL, capture_output=True, timeout=SECONDS,
                              **options).stdout

    def queue(self):
        return self.run("squeue", "--noheader")

    def submit(self, folder, array, *words):
        """Hands in an array of jobs. Returns its number."""
        return self.run("sbatch", "--parsable", f"--array={array}", *words, cwd=folder).strip()
