"""Runs the pieces of `cwtune-spread` on other hosts, by GNU parallel over ssh and rsync.

GNU parallel sends the program and the inputs as one archive to a temporary folder of its own on the
host, where job.sh runs the piece, and brings back an archive of what came of it. On this
host the same is done without sending.

No name of the user's is in a word that GNU parallel or a shell reads: the names in the folder of
the pieces are fixed, jobs of this host have its path in their environment, and the hosts are read
from a copy of their file. What is for all pieces, as that copy, has the number 0 in its name.
"""
import contextlib, hashlib, io, os, pathlib, re, shlex, shutil, signal, socket, subprocess, sys
import tarfile

from ..endings import Fault, tell
from ..regular import open_regular
from ..watching import rewrite
from ..writing import naming

# What a host says if it can run pieces.
ANSWER = "ready"
# Asks a host for that. Before, removes temporary folders of GNU parallel that earlier runs of the
# same work left there: those with inputs of this work, and empty ones. An empty one that a
# process is in stays: it may be of another job, which has written nothing yet.
PROBE = """cd ~/.parallel/tmp 2>/dev/null && for old in *-[0-9]*-[0-9]*; do
    for file in "$old"/0.*.{inputs} "$old"/.0.*.{inputs}.*; do
        if [ -e "$file" ]; then rm -rf "$old"; fi
    done
    ls -l /proc/[0-9]*/cwd 2>/dev/null | grep -qF "/$old" || rmdir "$old" 2>/dev/null
done
if command -v tar >/dev/null && command -v rsync >/dev/null; then echo {answer}
else echo no tar or no rsync; fi
"""
# Where GNU parallel puts in the number of a piece.
NUMBER = "{}"
# What GNU parallel runs for a piece. `echo` fails if the connection is gone already, which GNU
# parallel only sees later. `touch` says of which work the folder is, where no inputs are sent.
JOB = ("echo && touch {inputs} && cd $(mktemp -d ./XXXXXX) && to=${{CWTUNE_SPREAD_FOLDER:-..}} && "
       'tar -xf - <"$to/{inputs}" && exec sh ./job {piece} "$to" {words}')
SCRIPT = pathlib.Path(__file__).with_name("job.sh")
# With these statuses a piece has a result, which any host would have. With another one, as 3 on a
# host without memory and 126 on one that cannot run the program, it is tried on another host.
RESULTS = {0, 1, 2}
# A silent host is given up after these seconds: ssh waits for two thirds of them, and then two new
# connections fail. Only trials set the variable.
SECONDS = int(os.environ.get("CWTUNE_SILENT_SECONDS", "60"))
SSH_OPTIONS = (f"-o BatchMode=yes -o ConnectTimeout={max(2, SECONDS // 6)} "
               f"-o ServerAliveInterval={max(1, SECONDS // 6)} -o ServerAliveCountMax=3")
# Ends GNU parallel and all processes of its session, once nobody has the other end of the standard
# input.
GUARD = 'read -r _; kill -KILL "$0"; pkill -TERM -s "$0"; sleep 1; pkill -KILL -s "$0"'
MOST_TOLD = 5
# The hosts of which it was said why they are left out.
TOLD = set()


def refuse_missing_tools():
    """Refuses --hosts where what it runs is not installed."""
    for tool in ["parallel", "rsync"]:
        if not shutil.which(tool):
            raise Fault(f"--hosts needs GNU parallel and rsync, and there is no {tool}", 2)
    if not shutil.which("pkill"):
        raise Fault("--hosts needs pkill, and there is none (Debian: apt-get install procps)", 2)


def read_hosts(path):
    """Returns the lines of a file of hosts that name one, with the options of ssh in those that say
    how to run ssh. Refuses a file without any."""
    with naming(path), io.TextIOWrapper(open_regular(path), errors="surrogateescape") as file:
        lines = [line.strip() for line in file]
    hosts = [re.sub(r"(^|/)ssh\s", rf"\g<0>{SSH_OPTIONS} ", line, count=1)
             for line in lines if line and not line.startswith("#")]
    if not hosts:
        raise Fault(f"{path}: no host in it", 2)
    return hosts


def tell_left_out(reasons):
    """Says once of each host left out why; of many, only how many more there are."""
    lines = [f"note: {host.replace(f'{SSH_OPTIONS} ', '')} is left out: {reason}"
             for host, reason in reasons.items() if host not in TOLD]
    TOLD.update(reasons)
    if len(lines) > MOST_TOLD:
        lines[MOST_TOLD:] = [f"note: so are {len(lines) - MOST_TOLD} more hosts"]
    for line in lines:
        if sys.stderr.isatty():  # which may show the progress
            rewrite()
        tell(line)


class HostJobs:
    """Jobs of GNU parallel. At its end `waiting` has those without a status, `fault` says why."""

    fault = None

    def __init__(self, args, folder, numbers):
        refuse_missing_tools()
        self.args, self.folder, self.waiting = args, folder, list(numbers)
        of_folder = hashlib.sha256(os.fsencode(f"{socket.gethostname()} {folder.work}"))
        self.inputs = folder.file(0, f"inputs{of_folder.hexdigest()[:16]}")
        self.hosts, self.parallel = read_hosts(args.hosts), None
        try:
            self.begin()
        except BaseException:
            self.stop()
            raise

    def begin(self):
        host_count = self.ready_hosts()
        self.started, self.statuses, self.is_over = list(self.waiting), {}, False
        self.pack_inputs()
        with self.folder.file(0, "fault").open("wb") as log:
            self.start(self.parallel_words(host_count), subprocess.PIPE, log)
        # If it ends at once, it reads nothing.
        with contextlib.suppress(BrokenPipeError), self.parallel.stdin as stdin:
            stdin.write("".join(f"{number}\n" for number in self.waiting).encode())

    def start(self, options, stdin, output):
        """Starts GNU parallel in the folder and in a session of its own, and a guard, which ends it
        if this process is killed. Jobs run by `sh`, whatever the login shell."""
        ssh = f"{os.environ.get('PARALLEL_SSH', 'ssh')} {SSH_OPTIONS}"
        environment = {**os.environ, "PARALLEL_SHELL": "/bin/sh", "PARALLEL_SSH": ssh,
                       "CWTUNE_SPREAD_FOLDER": str(self.folder.path)}
        self.parallel = self.guard = None
        self.parallel = subprocess.Popen(
            ["parallel", "--will-cite", "--tmpdir", ".", "--sshloginfile",
             self.folder.file(0, "hosts").name, *options], cwd=self.folder.path, env=environment,
            stdin=stdin, stdout=output, stderr=subprocess.STDOUT, start_new_session=True)
        self.guard = subprocess.Popen(["sh", "-c", GUARD, str(self.parallel.pid)],
                                      stdin=subprocess.PIPE, stdout=subprocess.DEVNULL,
                                      stderr=subprocess.DEVNULL, start_new_session=True)

    def ready_hosts(self):
        """Leaves in the copy of the file of hosts only those that answer. Returns how many."""
        copy = self.folder.file(0, "hosts")
        copy.write_text("\n".join(self.hosts), errors="surrogateescape")
        probe = PROBE.format(inputs=self.inputs.name.rpartition(".")[2], answer=ANSWER)
        self.start(["--nonall", "--tag", "--jobs", "0", probe], subprocess.DEVNULL, subprocess.PIPE)
        output = self.parallel.communicate()[0].decode(errors="surrogateescape")
        self.stop()
        lines = re.findall(r"([^\t\n]+)\t([^\r\n]+)", output)
        ready = [host for host, line in lines if line == ANSWER]
        tell_left_out({host: line for host, line in reversed(lines) if host not in ready})
        if not ready and self.waiting:
            raise Fault(f"no host of {self.args.hosts} is ready", 3)
        copy.write_text("\n".join(ready), errors="surrogateescape")
        return len(ready)

    def pack_inputs(self):
        folder = self.folder
        with tarfile.open(self.inputs, "w") as archive:
            archive.add(SCRIPT, "job")
            for copy in folder.copies:
                archive.add(folder.path / copy.name, copy.name)
            for number in self.waiting:
                folder.prepare(number)
                for kind in folder.SENT_KINDS:
                    archive.add(folder.file(number, kind), folder.file(number, kind).name)

    def parallel_words(self, host_count):
        """Returns the words of GNU parallel, which puts a number in place of each `{}`."""
        inputs, piece = self.inputs.name, f"{NUMBER}.{self.folder.pid}"
        job = JOB.format(inputs=inputs, piece=piece, words=" ".join(self.folder.words(NUMBER)))
        # Of more than ten logins at once sshd refuses some.
        return ["--jobs", str(self.args.jobs), "--retries", str(host_count + 2),
                "--sshdelay", "0.1", "--workdir", "...", "--transferfile", inputs,
                "--return", f"{piece}.tar", f"sh -c {shlex.quote(job)}"]

    def keep_running(self):
        """Returns whether GNU parallel was running at the last call of `take_ended`."""
        return not self.is_over

    def take_ended(self):
        """Returns the numbers of the jobs that have ended since the last call, with their
        statuses. A status that is not in RESULTS counts only once GNU parallel has tried all
        hosts."""
        is_over = self.parallel.poll() is not None
        for number in self.returned():
            self.statuses[number] = self.unpack(number)
        ended = [(number, status) for number, status in self.statuses.items()
                 if status in RESULTS or is_over and status is not None]
        for number, _ in ended:
            self.waiting.remove(number)
            del self.statuses[number]
        if is_over:
            self.end_round()
        return ended

    def end_round(self):
        """Begins again for jobs that are lost, as by a dead host, unless all of a round are."""
        self.is_over, is_any_done = True, len(self.waiting) < len(self.started)
        if self.waiting:
            self.fault = self.complaint()
            if is_any_done:
                self.stop()
                try:
                    self.begin()
                except Fault as fault:
                    self.fault = str(fault)

    def complaint(self):
        """Returns the first line that GNU parallel, ssh or rsync wrote, or how it ended."""
        log = self.folder.file(0, "fault").read_text(errors="surrogateescape")
        lines = (line.strip() for line in log.splitlines() if "Warning: " not in line)
        return next(filter(None, lines),
                    f"GNU parallel ended with status {self.parallel.returncode}")

    def returned(self):
        names = set(os.listdir(self.folder.path))
        return [number for number in self.waiting if self.folder.file(number, "tar").name in names]

    def unpack(self, number):
        """Unpacks what came of a job. Returns its status, or None if the archive is damaged."""
        folder = self.folder
        # A job that is tried again makes another archive, so this one gets another name.
        archive = folder.file(number, "tar").rename(folder.file(number, "taken"))
        with (contextlib.suppress(ValueError, LookupError, tarfile.TarError),
              tarfile.open(archive, "r:") as files):
            members = {member.name: member for member in files if member.isreg()}
            for path in [folder.file(number, kind) for kind in folder.RETURNED_KINDS]:
                with files.extractfile(members[path.name]) as source, path.open("wb") as file:
                    shutil.copyfileobj(source, file)
            return int(files.extractfile(members[folder.file(number, "status").name]).read())
        return None

    def stop(self):
        """Ends GNU parallel and all that it runs here, and so what it runs on hosts."""
        if not self.parallel:
            return
        if self.guard:
            if self.parallel.poll() is not None:
                self.guard.kill()
            self.guard.stdin.close()
            self.guard.wait()
        else:  # it could not be started
            os.killpg(self.parallel.pid, signal.SIGKILL)
        self.parallel.wait()
        temporary = pathlib.Path(os.path.expanduser("~/.parallel/tmp"))
        for left in temporary.glob(f"{socket.gethostname()}-{self.parallel.pid}-*"):
            shutil.rmtree(left, ignore_errors=True)
