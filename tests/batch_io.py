"""The program `batch` on descriptors that do not block, under signals, and where a call fails in the middle. usage: batch_io.py PROGRAM

A signal interrupts a call (EINTR) only through a handler, and the program has none. But on Linux a read or a write of a socket that has a
timeout also fails with EINTR once its process was stopped and goes on (signal(7)). The tests use that, and first try it on a call of the C
library alone: where this system restarts such a call they say so and show nothing."""
import fcntl
import os
import signal
import socket
import struct
import subprocess
import sys
import threading
import time

PROGRAM = sys.argv[1]
QUESTION, ANSWER = [open(f'tests/batch/whole-case.{end}', 'rb').read() for end in ('in', 'out')]
MANY, ANSWERS = [20 * open(f'tests/batch/thousand.{end}', 'rb').read() for end in ('in', 'out')]


def same(case, got, wanted):
    if got != wanted:
        at = len(os.path.commonprefix([got, wanted]))
        sys.exit(f'batch: {case}: {len(got)} octets, not {len(wanted)}; from {at} on {got[at:at + 60]!r}, not {wanted[at:at + 60]!r}')


def start(stdin, stdout, **more):
    """The program on these descriptors, which are then its own."""
    run = subprocess.Popen([PROGRAM], stdin=stdin, stdout=stdout, stderr=subprocess.PIPE, **more)
    for end in {stdin, stdout} - {subprocess.PIPE}:
        os.close(end)
    return run


def told(case, run, wanted=b''):
    """It ends, and this is what it wrote to standard error."""
    same(f'{case}, standard error', run.stderr.read(), wanted)
    run.wait(timeout=10)


def fed(octets, end):
    """A thread that writes the octets and closes the end, so that the caller can read meanwhile."""
    def write():
        try:
            with os.fdopen(end, 'wb') as pipe:
                pipe.write(octets)
        except BrokenPipeError:
            pass  # it has ended: what it wrote tells
    thread = threading.Thread(target=write)
    thread.start()
    return thread


def read_all(end):
    with os.fdopen(end, 'rb') as pipe:
        return pipe.read()


def fields(run):
    return open(f'/proc/{run.pid}/stat').read().rpartition(')')[2].split()


def idle(case, run):
    """It waits for a second and hardly uses the processor."""
    before = sum(map(int, fields(run)[11:13]))
    time.sleep(1)
    used = (sum(map(int, fields(run)[11:13])) - before) / os.sysconf('SC_CLK_TCK')
    if run.poll() is not None:
        sys.exit(f'batch: {case}: it does not wait')
    if 0.2 < used:
        sys.exit(f'batch: {case}: {used} s of work in a second of waiting')


def stop_and_go(run):
    time.sleep(0.1)
    run.send_signal(signal.SIGSTOP)
    while run.poll() is None and fields(run)[0] != 'T':
        time.sleep(0.01)
    run.send_signal(signal.SIGCONT)


def timed_pair(option):
    """Two sockets, the second with a timeout of a minute, and its descriptor."""
    ours, theirs = socket.socketpair()
    theirs.setsockopt(socket.SOL_SOCKET, option, struct.pack('ll', 60, 0))
    return ours, theirs.detach()


def interrupted(call, option):
    """Whether a call of the C library on such a socket, which waits, is interrupted here."""
    ours, theirs = timed_pair(option)
    code = f'''import ctypes, errno
libc = ctypes.CDLL(None, use_errno=True)
space = ctypes.create_string_buffer(1 << 20)
while 0 < libc.{call}({theirs}, space, len(space)): pass
print(ctypes.get_errno() == errno.EINTR)'''
    run = subprocess.Popen([sys.executable, '-c', code], pass_fds=[theirs], stdout=subprocess.PIPE)
    os.close(theirs)
    time.sleep(0.5)
    for _ in range(3):
        stop_and_go(run)
    ours.close()
    works = run.stdout.read() == b'True\n'
    run.wait()
    if not works:
        print(f'  no {call} is interrupted here: not shown')
    return works


def slow_input():
    case = 'input that does not block'
    theirs, ours = os.pipe()
    os.set_blocking(theirs, False)
    run = start(theirs, subprocess.PIPE)
    idle(case, run)
    for at in range(0, len(QUESTION), 5):
        os.write(ours, QUESTION[at:at + 5])
        time.sleep(0.05)
    same(case, run.stdout.read(len(ANSWER)), ANSWER)
    os.write(ours, QUESTION[:7])
    idle(case, run)
    os.write(ours, QUESTION[7:])
    os.close(ours)
    same(case, run.stdout.read(), ANSWER)
    told(case, run)


def slow_output():
    case = 'output that does not block'
    stdin, questions = os.pipe()
    ours, theirs = os.pipe()
    os.set_blocking(theirs, False)
    fcntl.fcntl(theirs, fcntl.F_SETPIPE_SZ, 4096)
    run = start(stdin, theirs)
    writing = fed(MANY, questions)
    idle(case, run)
    same(case, read_all(ours), ANSWERS)
    told(case, run)
    writing.join()


def both_slow():
    case = 'input and output that do not block'
    stdin, questions = os.pipe()
    ours, stdout = os.pipe()
    os.set_blocking(stdin, False)
    os.set_blocking(stdout, False)
    run = start(stdin, stdout)
    writing = fed(MANY, questions)
    same(case, read_all(ours), ANSWERS)
    told(case, run)
    writing.join()


def interrupted_input():
    case = 'a read that is interrupted'
    ours, theirs = timed_pair(socket.SO_RCVTIMEO)
    run = start(theirs, subprocess.PIPE)
    for at in range(0, len(QUESTION), 5):
        stop_and_go(run)
        ours.sendall(QUESTION[at:at + 5])
    stop_and_go(run)
    ours.close()
    same(case, run.stdout.read(), ANSWER)
    told(case, run)


def interrupted_output():
    case = 'a write that is interrupted'
    stdin, questions = os.pipe()
    ours, theirs = timed_pair(socket.SO_SNDTIMEO)
    run = start(stdin, theirs)
    writing = fed(MANY, questions)
    for _ in range(5):
        stop_and_go(run)
    same(case, read_all(ours.detach()), ANSWERS)
    told(case, run)
    writing.join()


def failed_in_the_middle():
    """A socket whose other end is closed with octets in it unread fails: here within the second question."""
    case = 'a read that fails in the middle of a question'
    ours, theirs = socket.socketpair()
    descriptor = theirs.detach()
    run = start(descriptor, descriptor)
    ours.sendall(QUESTION + QUESTION[:10])
    while len(ours.recv(len(ANSWER), socket.MSG_PEEK)) < len(ANSWER):
        time.sleep(0.01)
    time.sleep(0.1)
    ours.close()
    counts = f'batch: {len(QUESTION) + 10} octets read, {len(ANSWER)} octets written\n'
    told(case, run, b'batch: standard input: Connection reset by peer\n' + counts.encode())


def no_reader():
    """Every program of today's Rattle ignores SIGPIPE from its start, so that the write fails whatever the signal did before."""
    for ignored in (False, True):
        case = f'nobody reads the answers, SIGPIPE {"ignored" if ignored else "not ignored"}'
        ours, theirs = os.pipe()
        os.close(ours)
        # Python ignores SIGPIPE, and restores it in what it starts unless it is told not to
        run = start(os.open('tests/batch/whole-case.in', os.O_RDONLY), theirs, restore_signals=not ignored)
        line = f'batch: standard output: Broken pipe\nbatch: {len(QUESTION)} octets read, 0 octets written\n'
        told(case, run, line.encode())
        if run.returncode != 0:
            sys.exit(f'batch: {case}: status {run.returncode}')


slow_input()
slow_output()
both_slow()
if interrupted('read', socket.SO_RCVTIMEO):
    interrupted_input()
if interrupted('write', socket.SO_SNDTIMEO):
    interrupted_output()
failed_in_the_middle()
no_reader()
