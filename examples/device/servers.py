"""A disk on a module, for the scripts of this folder: `pcm disk` behind ../disk/relay.py. It needs, of Debian, python3-libnbd, and the system's python3."""
import argparse
import atexit
import os
import pathlib
import shutil
import signal
import subprocess
import sys
import tempfile
import time

TOP = pathlib.Path(__file__).resolve().parent.parent.parent
RELAY = TOP / "examples" / "disk" / "relay.py"
sys.path.append(str(RELAY.parent))  # (from here on its modules are found)
import recorded  # noqa: E402


def run(*words, ok=(0,)):
    done = subprocess.run(words, stdout=subprocess.PIPE, stderr=subprocess.STDOUT, text=True)
    if done.returncode not in ok:
        raise RuntimeError(f"{' '.join(map(str, words))}: status {done.returncode}: {done.stdout}")
    return done


def need(tools):
    """Ends the script with status 77 where a tool isn't there: each stands with the package of Debian that has it."""
    missing = {package for tool, package in tools.items() if not shutil.which(tool, path=f"{os.environ['PATH']}:/usr/sbin:/sbin")}
    try:
        import nbd  # noqa: F401
    except ImportError:
        missing.add("python3-libnbd, for the system's python3")
    if missing:
        print(f"{pathlib.Path(sys.argv[0]).name}: it lacks (Debian: apt-get install) {', '.join(sorted(missing))}", file=sys.stderr)
        sys.exit(77)


def fails(message, status=2):
    """Ends the script with a sentence."""
    print(f"{pathlib.Path(sys.argv[0]).name}: {message}", file=sys.stderr)
    sys.exit(status)


def whole(least, most=2**40):
    """The type of a number that a script takes."""
    def read(text):
        if not (text.isascii() and text.isdigit() and least <= int(text) <= most):
            raise argparse.ArgumentTypeError(f"{text}: it is a number from {least} to {most}")
        return int(text)
    return read


def asking(about, *names):
    """The words that each script takes: the program, what else it names, and the module's and the disk's parameters."""
    ask = argparse.ArgumentParser(description=about, formatter_class=argparse.RawDescriptionHelpFormatter)
    for name in ("pcm", *names):
        ask.add_argument(name)
    ask.add_argument("parameters", nargs="*", default=[], metavar="KEY=VALUE")
    return ask


def asking_of_cuts(about, cycles):
    """Also those of scripts that cut the power under a database, again and again."""
    ask = asking(about)
    ask.add_argument("--cycles", type=whole(1), default=cycles)
    ask.add_argument("--seed", type=int, default=1)
    ask.add_argument("--mode", choices=("delete", "wal"), default="delete")
    ask.add_argument("--sync", choices=("full", "extra"), default="extra")
    ask.add_argument("--most-ticks", type=whole(1), default=400000, help="until a cut, at most")
    return ask


def numbers(text):
    """What the export `cut` and a report say: numbers by their words."""
    return {key: int(value) for key, value in (line.split() for line in text.split("\n") if line)}


def parameters_of(log):
    """What a disk was served with, by its log: its options as parameters."""
    try:
        words = recorded.options_of(log)
    except recorded.Fault as fault:
        fails(fault)
    return [f"{name[2:]}={value}" for name, value in zip(words[::2], words[1::2])]


class Server:
    """It lives in a folder of its own, which goes away with the script, as the server does."""

    def __init__(self, pcm, parameters, log=None, cuts=False, fds=()):
        """`log`: a file of the caller's, or True for one in the server's folder. `cuts`: cuts will be asked for. `fds`: what the relay is handed."""
        need({})
        self.dir = pathlib.Path(tempfile.mkdtemp(prefix="pcm-device-"))
        self.process, self.open = None, []
        atexit.register(self.leave)
        for number in (signal.SIGTERM, signal.SIGHUP):
            signal.signal(number, lambda *_: sys.exit(1))
        self.sock, self.report = self.dir / "sock", self.dir / "report"
        words = [f"pcm={pcm if '/' not in str(pcm) else os.path.abspath(pcm)}", f"report={self.report}", *parameters]
        if log:
            self.log = self.dir / "log" if log is True else pathlib.Path(log).absolute()
            words.append(f"log={self.log}")
        if cuts and not any(it.startswith("on-cut=") for it in parameters):
            words.append("on-cut=ask")
        with open(self.dir / "said", "w") as said:
            self.process = subprocess.Popen([sys.executable, RELAY, self.sock, *words], stderr=said, pass_fds=fds)
        while not self.sock.exists() and self.process.poll() is None:
            time.sleep(0.01)

    def said(self):
        return (self.dir / "said").read_text()

    def must_run(self):
        """Where the program couldn't be started, or its log is refused, the script ends with what was said."""
        if self.process.poll() is not None:
            sys.exit(self.said())
        return self

    def uri(self, export=""):
        return f"nbd+unix:///{export}?socket={self.sock}"

    def connect(self, export=""):
        import nbd
        it = nbd.NBD()
        it.connect_uri(self.uri(export))
        self.open.append(it)
        return it

    def control(self, text=None):
        """Gives the export `cut` a word, and answers what it tells."""
        it = self.connect("cut")
        if text:
            it.pwrite(text.encode(), 0)
        told = it.pread(4096, 0).decode()
        self.open.pop().shutdown()
        return numbers(told)

    def through_cuts(self, act):
        """What an act answers amid which no power cut was told: until then it is done again."""
        while True:
            before = self.control()["cut"]
            try:
                answer = act()
            except RuntimeError:
                if self.control()["cut"] == before:
                    raise
            else:
                if self.control()["cut"] == before:
                    return answer

    def stop(self):
        """Ends it."""
        for it in self.open:
            try:
                it.shutdown()
            except Exception:  # (one that an error has ended)
                pass
        self.open.clear()
        if self.process and self.process.poll() is None:
            self.process.terminate()
            try:
                self.process.wait(30)
            except subprocess.TimeoutExpired:
                self.process.kill()
                self.process.wait()

    def end(self):
        """Ends it, and answers its report."""
        self.stop()
        return numbers(self.report.read_text())

    def leave(self):
        """Whatever happened: nothing is left."""
        self.stop()
        shutil.rmtree(self.dir, ignore_errors=True)
        atexit.unregister(self.leave)

    def __enter__(self):
        return self

    def __exit__(self, *_):
        self.leave()
