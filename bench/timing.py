"""What the benches share: runs of the program over a log, timed."""
import os
import resource
import subprocess
import sys
import tempfile
import time
from typing import NamedTuple

PROGRAM = os.path.join(os.path.dirname(os.path.dirname(os.path.abspath(__file__))), "crates/hmaster/out/hmaster")
FOLDER = "/dev/shm"


def runnable(path):
    """The program at a path, which has to be there."""
    program = os.path.abspath(path)
    if not os.access(program, os.X_OK):
        sys.exit("there is no program at %s: build it by examples/demo, or name another" % program)
    return program


def arguments():
    """The program and the folder that the command line names, or the repository's own program and a folder in memory."""
    program = runnable(sys.argv[1] if len(sys.argv) > 1 else PROGRAM)
    folder = sys.argv[2] if len(sys.argv) > 2 else FOLDER
    if not os.path.isdir(folder):
        sys.exit("there is no folder %s: name one on a file system in memory" % folder)
    return program, folder


def processor_time():
    used = resource.getrusage(resource.RUSAGE_CHILDREN)
    return used.ru_utime + used.ru_stime


def run(program, log, script, last):
    """The processor time of a run whose last line has to be `last`."""
    before = processor_time()
    done = subprocess.run([program, "run", log], input=script, stdout=subprocess.PIPE, check=True)
    took = processor_time() - before
    said = done.stdout.decode().splitlines()[-1]
    if said != last:
        sys.exit("expected the last line %r and got %r" % (last, said))
    return took


class Run(NamedTuple):
    """Processor times of a run: until it had opened the log, from then on to its last answer, and of all."""
    opening: float
    answering: float
    whole: float


def clock_of(child):
    """The processor time of a child until now, by the clock that Linux has for each process, numbered as by clock_getcpuclockid."""
    return time.clock_gettime(~child.pid << 3 | 2)


def timed(program, log, script, last):
    """A run whose last line has to be `last`, with the time of its answers by itself: each line is written as it is made, the first
    after the opening."""
    with tempfile.TemporaryFile() as words:
        words.write(script)
        words.seek(0)
        before = processor_time()
        with subprocess.Popen([program, "run", log], stdin=words, stdout=subprocess.PIPE, bufsize=0) as child:
            said = child.stdout.read(1 << 16)
            opened = answered = clock_of(child)
            while more := child.stdout.read(1 << 16):
                answered = clock_of(child)
                said = (said + more)[-100:]
        whole = processor_time() - before
    line = said.decode().splitlines()[-1] if said else ""
    if child.returncode or line != last:
        sys.exit("expected the last line %r and got %r, with status %d" % (last, line, child.returncode))
    return Run(opened, answered - opened, whole)


def submissions(numbers):
    """A script that asks for a namespace under each of these nonces."""
    return "".join("namespace 7:%d n%d\n" % (number, number) for number in numbers).encode()


def tables(numbers, regions=1):
    """A script that asks for a table of so many regions under each of these nonces."""
    keys = "".join(" k%02d" % number for number in range(1, regions))
    return "".join("create 7:%d t%d%s\n" % (number, number, keys) for number in numbers).encode()


def verdict(what, ratio, most):
    """Says how a ratio stands to its bound; the exit status of the bench."""
    print("%s is %.2f, at most %.4g is wanted" % (what, ratio, most))
    return 1 if ratio > most else 0
