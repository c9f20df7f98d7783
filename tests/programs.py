"""How a program of the project is found, built where it is missing or older than a source, and started."""
import os
import platform
import shutil
import subprocess
import sys
import time

ROOT = os.path.dirname(os.path.dirname(os.path.realpath(__file__)))


class Missing(Exception):
    """The program cannot be had; the text says why."""


def program_file(name):
    return os.path.join(ROOT, 'crates', name, 'out', name)


def sources():
    yield os.path.join(ROOT, 'crates.txt')
    for folder, below, files in os.walk(os.path.join(ROOT, 'crates')):
        below[:] = [name for name in below if name != 'out']  # what rt makes is no source
        for file in files:
            if file == 'crates.txt' or file.endswith(('.rt', '.antt')):
                yield os.path.join(folder, file)


def stale(name):
    """Whether the program is missing, or older than a source."""
    program = program_file(name)
    if not os.path.isfile(program):
        return True
    built = os.path.getmtime(program)
    return any(os.path.getmtime(source) > built for source in sources())


def build(name):
    program = program_file(name)
    print('building %s (rt run in crates/%s): a few minutes the first time, since it is proved on the way ...' % (name, name),
          file=sys.stderr, flush=True)
    # rt runs what it built, here on an empty input
    ran = subprocess.run(['rt', 'run'], cwd=os.path.join(ROOT, 'crates', name), stdin=subprocess.DEVNULL,
                         stdout=subprocess.DEVNULL, stderr=subprocess.PIPE, text=True)
    if ran.returncode:
        raise Missing('rt run in crates/%s failed, and ended so:\n%s' % (name, '\n'.join(ran.stderr.splitlines()[-20:])))
    if not os.path.isfile(program):
        raise Missing('rt run passed and left no crates/%s/out/%s' % (name, name))
    os.utime(program)


def command(name):
    """The words that start the program: as rt does, by itself, under the machine's own loader and C library."""
    program, machine = program_file(name), platform.machine()
    if machine != 'x86_64':
        raise Missing('%s is built for x86-64, and this machine is %s' % (name, machine))
    if not shutil.which('rt'):
        if not os.path.isfile(program):
            raise Missing('%s needs rt, which is not on the PATH' % name)
        if stale(name):
            print('the sources are newer than %s, and rt, which builds it, is not on the PATH' % name, file=sys.stderr)
    elif stale(name):
        build(name)
    return [program]


class Ran:
    """What a run left: output, seconds, and what is wrong with the run itself ('' if nothing is)."""
    def __init__(self, output, seconds, wrong):
        self.output, self.seconds, self.wrong = output, seconds, wrong


def run(words, data, limit=10):
    """Runs a program on these bytes for at most so many seconds."""
    began = time.monotonic()
    try:
        ended = subprocess.run(words, input=data, stdout=subprocess.PIPE, stderr=subprocess.PIPE, timeout=limit)
    except subprocess.TimeoutExpired:
        return Ran(b'', time.monotonic() - began, 'did not end within %d seconds' % limit)
    seconds = time.monotonic() - began
    if ended.returncode:
        return Ran(ended.stdout, seconds, 'exit status %d' % ended.returncode)
    return Ran(ended.stdout, seconds, 'wrote to standard error: %r' % ended.stderr[:200] if ended.stderr else '')


def words_for(name, instead):
    """The program to try: the built one, or the file named in its stead."""
    try:
        return [os.path.abspath(instead)] if instead else command(name)
    except Missing as why:
        sys.exit('tests: ' + str(why))
