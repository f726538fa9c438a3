"""Starts the servers that are compared, event_server, nginx and Apache's event MPM, as far as they are installed: each in a folder that
the caller makes and at free ports of this machine, and stops it again. No root is needed."""

import os
import shutil
import socket
import subprocess
import sys
import time

HOST = "127.0.0.1"
TOP = os.path.dirname(os.path.dirname(os.path.abspath(__file__)))
PROGRAM = "crates/event_server/out/event_server"
MODULES = ["/usr/lib/apache2/modules", "/usr/lib64/httpd/modules", "/usr/libexec/apache2", "/usr/lib/httpd/modules"]
ASK_STATUS = b"GET /server-status?auto HTTP/1.1\r\nHost: localhost\r\nConnection: close\r\n\r\n"
# After so many seconds an answer that hasn't come counts as failed.
PATIENCE = 30


def stop(why):
    """Ends the program with this text, under its name."""
    sys.exit(f"{os.path.basename(sys.argv[0])}: {why}")


def found(*names):
    """The path of the first of these programs that is installed."""
    path = f"{os.environ.get('PATH', '')}:/usr/local/sbin:/usr/sbin:/sbin"
    return next(filter(None, (shutil.which(name, path=path) for name in names)), None)


def built_program():
    """The path of event_server, which is proved and built first where it isn't there as the sources say."""
    subprocess.run([f"{TOP}/serve", "--build"], stdout=subprocess.DEVNULL, check=True)
    return f"{TOP}/{PROGRAM}"


def free_ports():
    """Two ports that are free."""
    held = [socket.socket() for _ in range(2)]
    for one in held:
        one.bind((HOST, 0))
    ports = [one.getsockname()[1] for one in held]
    for one in held:
        one.close()
    return ports


def wide(children, seconds):
    """The lines of event_server and of Apache for two children that take all connections, which may wait so long, of so many that may be."""
    return (
        f"ServerLimit {children}\nStartServers 2\nThreadLimit 64\nThreadsPerChild 64\nMaxRequestWorkers 128\n"
        f"AsyncRequestWorkerFactor 100\nTimeout {seconds}\nKeepAliveTimeout {seconds}\nMaxKeepAliveRequests 0\n"
    )


def run(words, folder):
    """Runs a command of a server, which has to end with status 0."""
    told = subprocess.run(words, cwd=folder, capture_output=True, text=True, timeout=120)
    if told.returncode != 0:
        stop(f"{' '.join(words)} ended with status {told.returncode}: {told.stdout[:200]} {told.stderr[:200]}")


def children_of(parent):
    """The processes that the process has started and that are there."""
    mine = set()
    for number in filter(str.isdigit, os.listdir("/proc")):
        try:
            with open(f"/proc/{number}/stat") as file:
                state, above = file.read().rpartition(") ")[2].split()[:2]
        except OSError:
            continue
        if int(above) == parent and state != "Z":
            mine.add(int(number))
    return mine


def command_of(number):
    """The words of a process, or none where it is gone."""
    try:
        with open(f"/proc/{number}/cmdline", "rb") as file:
            return file.read()
    except OSError:
        return b""


class EventServer:
    name = "event_server"

    def __init__(self, program, children, seconds):
        self.program, self.wide = program, wide(children, seconds)

    def begin(self, folder, port, control):
        """Writes its configuration, and answers the words that start it."""
        with open(f"{folder}/httpd.conf", "w") as file:
            file.write(f"Listen {HOST}:{port}\nControlListen {control}\n{self.wide}")
        return [self.program, "-f", "httpd.conf"]

    def restart(self, running):
        run([self.program, "-k", "graceful", "-f", "httpd.conf"], running.folder)

    def sign(self, running):
        """What another value shows that a restart was carried out: the number of its generation."""
        with socket.create_connection((HOST, running.port), timeout=PATIENCE) as link:
            link.sendall(ASK_STATUS)
            told = b"".join(iter(lambda: link.recv(65536), b""))
        return next(line for line in told.splitlines() if line.startswith(b"Generation: "))

    def has_changed(self, before, running):
        return self.sign(running) != before

    def end(self, running):
        # Where it has ended already nobody takes the word, and its own status says why.
        words = [self.program, "-k", "stop", "-f", "httpd.conf"]
        subprocess.run(words, cwd=running.folder, stdout=subprocess.DEVNULL, stderr=subprocess.DEVNULL)
        status = running.process.wait(timeout=60)
        if status != 0:
            stop(f"event_server ended with status {status}")


class Forking:
    """A server whose restart shows itself by its processes: there are new ones, and no old one takes connections, as far as they tell."""

    def sign(self, running):
        return children_of(running.process.pid)

    def has_changed(self, before, running):
        now = self.sign(running)
        return bool(now - before) and not now & before

    def end(self, running):
        running.process.terminate()
        running.process.wait(timeout=60)


class Nginx(Forking):
    def __init__(self, program, seconds, wide=False):
        """It has one worker process and doesn't send files by `sendfile`; or, wide, as many as there are processors, and does."""
        self.program, self.seconds = program, seconds
        self.name = "nginx, wide" if wide else "nginx"
        self.workers, self.sendfile = ("auto", "on") if wide else ("1", "off")

    def begin(self, folder, port, _):
        temporary = "".join(f"{kind}_temp_path {kind};\n" for kind in ["client_body", "proxy", "fastcgi", "uwsgi", "scgi"])
        user = "user root;\n" if os.geteuid() == 0 else ""
        with open(f"{folder}/nginx.conf", "w") as file:
            file.write(
                f"daemon off;\n{user}worker_processes {self.workers};\npid nginx.pid;\nevents {{ worker_connections 12000; }}\n"
                f"http {{\n{temporary}access_log off;\netag off;\nsendfile {self.sendfile};\ntcp_nodelay on;\n"
                "open_file_cache max=100 inactive=1h;\nopen_file_cache_valid 1h;\n"
                f"keepalive_timeout {self.seconds};\nkeepalive_requests 1000000000;\nclient_header_timeout {self.seconds};\n"
                "default_type text/html;\n"
                f"server {{ listen {HOST}:{port} backlog=4096; root htdocs; }}\n}}\n"
            )
        return self.words(folder)

    def words(self, folder):
        return [self.program, "-p", folder, "-c", "nginx.conf", "-e", "nginx.log"]

    def sign(self, running):
        """Its workers, without those that are shutting down: they say so."""
        return {number for number in children_of(running.process.pid) if b"shutting down" not in command_of(number)}

    def restart(self, running):
        run([*self.words(running.folder), "-s", "reload"], running.folder)


class Apache(Forking):
    name = "Apache"

    def __init__(self, program, modules, children, seconds):
        self.program, self.modules, self.wide = program, modules, wide(children, seconds)

    def begin(self, folder, port, _):
        files = {name: f"{self.modules}/mod_{name}.so" for name in ["mpm_event", "unixd", "authz_core"]}
        loads = "".join(f"LoadModule {name}_module {file}\n" for name, file in files.items() if os.path.exists(file))
        user = "User #65534\nGroup #65534\n" if os.geteuid() == 0 else ""
        with open(f"{folder}/apache.conf", "w") as file:
            file.write(
                f"{loads}{user}ServerRoot {folder}\nDefaultRuntimeDir {folder}\nPidFile {folder}/apache.pid\n"
                f"ErrorLog {folder}/apache.log\nServerName localhost\nListen {HOST}:{port}\nListenBacklog 4096\n{self.wide}"
                f"MinSpareThreads 64\nMaxSpareThreads 128\nEnableSendfile Off\nFileETag None\nDocumentRoot {folder}/htdocs\n"
                f"<Directory {folder}/htdocs>\nOptions FollowSymLinks\nAllowOverride None\n</Directory>\n"
            )
        return [self.program, "-f", f"{folder}/apache.conf", "-DFOREGROUND"]

    def restart(self, running):
        run([self.program, "-f", f"{running.folder}/apache.conf", "-k", "graceful"], running.folder)

    def has_changed(self, before, running):
        """There are new processes. Old ones don't tell whether they still take connections."""
        return bool(self.sign(running) - before)


def servers(program, children, seconds, wide=False):
    """event_server as this program, where there is one, and the others, as far as they are installed: with room for so many children, and
    so many seconds for connections that wait. nginx may be there a second time, with all processors."""
    there = [EventServer(program, children, seconds)] if program else []
    nginx = found("nginx")
    if nginx:
        there.append(Nginx(nginx, seconds))
        if wide:
            there.append(Nginx(nginx, seconds, wide=True))
    apache = found("apache2", "httpd")
    modules = next((folder for folder in MODULES if os.path.exists(f"{folder}/mod_mpm_event.so")), None)
    if apache and modules:
        there.append(Apache(apache, modules, children, seconds))
    return there


class Running:
    """A server that was started in the folder, until it is stopped."""

    def __init__(self, server, folder):
        self.server, self.folder = server, folder
        self.port, control = free_ports()
        words = server.begin(folder, self.port, control)
        with open(f"{folder}/{server.name}.out", "w") as out:
            self.process = subprocess.Popen(words, cwd=folder, stdout=out, stderr=out, stdin=subprocess.DEVNULL)

    def __enter__(self):
        for _ in range(600):
            if self.process.poll() is not None:
                break
            try:
                socket.create_connection((HOST, self.port), timeout=1).close()
                return self
            except OSError:
                time.sleep(0.05)
        self.process.terminate()
        with open(f"{self.folder}/{self.server.name}.out") as out:
            stop(f"{self.server.name} doesn't serve, and printed {out.read()[:300]!r}")

    def __exit__(self, kind, *_):
        if kind is None:
            self.server.end(self)
        else:
            self.process.terminate()
            self.process.wait(timeout=60)
