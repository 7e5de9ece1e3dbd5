#!/usr/bin/env python3
"""Runs a program on a script, and times the end of it. usage: timed_tail.py SCRIPT HEAD PROGRAM [WORD..]

The program gets the first HEAD lines of the script's file through a pipe. It has done them once the pipe is empty and
the program waits and takes no processor time. Then it gets the rest, and its time is measured from there until it has
ended. Its output is discarded.

Prints the wall time and the processor time in microseconds, the latter in steps of 10000. The status is the program's,
or 1 if a signal ended it.
"""
import array, fcntl, itertools, os, subprocess, sys, termios, time

PIPE_SIZE, STEP, CALM_STEPS = 1 << 20, 0.01, 5
TICKS = os.sysconf("SC_CLK_TCK")


def unread(pipe):
    """Returns the number of bytes in a pipe."""
    count = array.array("i", [0])
    fcntl.ioctl(pipe, termios.FIONREAD, count)
    return count[0]


def state_and_ticks(pid):
    """Returns the state of a process, and the ticks of processor time that it has taken."""
    with open(f"/proc/{pid}/stat") as stat:
        fields = stat.read().rpartition(")")[2].split()
    return fields[0], int(fields[11]) + int(fields[12])


def wait_until_calm(child):
    """Waits until a program has read and done all its input. Returns the ticks of processor time it has taken."""
    calm, last = 0, -1
    while calm < CALM_STEPS:
        time.sleep(STEP)
        state, ticks = state_and_ticks(child.pid)
        if state in "ZX":
            break
        calm = calm + 1 if state == "S" and ticks == last and unread(child.stdin) == 0 else 0
        last = ticks
    return last


def feed(child, part):
    """Writes bytes to a program's pipe, until all are written or the program has ended."""
    rest = memoryview(part)
    try:
        while rest:
            rest = rest[child.stdin.write(rest):]
    except BrokenPipeError:
        pass


script, head, command = sys.argv[1], int(sys.argv[2]), sys.argv[3:]
with open(script, "rb") as file:
    front = b"".join(itertools.islice(file, head))
    tail = file.read()
child = subprocess.Popen(command, stdin=subprocess.PIPE, stdout=subprocess.DEVNULL, bufsize=0)
fcntl.fcntl(child.stdin, fcntl.F_SETPIPE_SZ, PIPE_SIZE)
feed(child, front)
ticks_before = wait_until_calm(child)
begin = time.perf_counter()
feed(child, tail)
child.stdin.close()
_, status, used = os.wait4(child.pid, 0)
end = time.perf_counter()
code = os.waitstatus_to_exitcode(status)
if code != 0:
    sys.exit(code if code > 0 else 1)
spent = used.ru_utime + used.ru_stime - ticks_before / TICKS
print(round((end - begin) * 1e6), round(spent * 1e6))
