"""What the examples share: where things are, how they end, and programs that end with them."""
import contextlib
import os
import signal
import subprocess
import sys

TOP = os.path.dirname(os.path.dirname(os.path.abspath(__file__)))
CRATE = os.path.join(TOP, "crates/hmaster")
PROGRAM = os.path.join(CRATE, "out/hmaster")
SIGNALS = [signal.SIGINT, signal.SIGTERM, signal.SIGHUP]


class Failed(Exception):
    """Why an example can't go on."""


class Ended(BaseException):
    """A signal came that asks the example to end."""

    def __init__(self, number):
        super().__init__()
        self.number = number


def end(number, _frame):
    for each in SIGNALS:
        signal.signal(each, signal.SIG_IGN)
    raise Ended(number)


def stop_group(child, first):
    """Ends a program with all that it started, by a signal upon which it may tidy up, for ten seconds."""
    for number in [first, signal.SIGKILL]:
        with contextlib.suppress(ProcessLookupError):
            os.killpg(child.pid, number)
        with contextlib.suppress(subprocess.TimeoutExpired):
            child.wait(10)


@contextlib.contextmanager
def started(words, **how):
    """A program that runs beside the example, and not after it."""
    child = subprocess.Popen(words, start_new_session=True, **how)
    try:
        yield child
    except Ended as ended:
        stop_group(child, ended.number)
        raise
    finally:
        if child.poll() is None:
            stop_group(child, signal.SIGTERM)


def need_rt():
    """Says where rt comes from, if it isn't there."""
    if not any(os.access(os.path.join(folder, "rt"), os.X_OK) for folder in os.get_exec_path()):
        raise Failed("there is no rt on the PATH. It is the command of the kit that hmaster is written with; see README.md, 'What you need'")


def run_to_end(name, body):
    """Runs a program of this repository to its end. Ended by a signal it says so, and its status is that signal's."""
    for number in SIGNALS:
        if signal.getsignal(number) != signal.SIG_IGN:
            signal.signal(number, end)
    try:
        sys.exit(body())
    except Failed as why:
        sys.exit(f"{name}: {why}")
    except Ended as ended:
        print(f"{name}: ended by {signal.Signals(ended.number).name}", file=sys.stderr, flush=True)
        signal.signal(ended.number, signal.SIG_DFL)
        os.kill(os.getpid(), ended.number)
