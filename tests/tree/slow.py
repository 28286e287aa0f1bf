"""A reader that does not keep up: the pipe is full, a line cannot be written, and what was read is a beginning of the text."""
import fcntl
import os
import subprocess
import sys
import time

SET_PIPE_SIZE = 1031  # F_SETPIPE_SZ, which older Pythons do not name
program = os.path.join(os.path.dirname(os.path.abspath(__file__)), '../../tree')
line = b'8 3 8 0 0\n'


def read_slowly(pause):
    """What is read of a pipe that does not block the program, with a pause before each read."""
    read, write = os.pipe()
    os.set_blocking(write, False)
    try:
        fcntl.fcntl(write, SET_PIPE_SIZE, 4096)
    except OSError:
        pass
    # a program that stops there says why on standard error
    child = subprocess.Popen([program], stdin=subprocess.PIPE, stdout=write, stderr=subprocess.DEVNULL)
    os.close(write)
    child.stdin.write(line)
    child.stdin.close()
    parts = []
    while True:
        time.sleep(pause)
        part = os.read(read, 4096)
        if not part:
            break
        parts.append(part)
    os.close(read)
    child.wait()
    return parts


whole = subprocess.run([program], input=line, stdout=subprocess.PIPE, check=True).stdout
if whole.count(b'\n') != 4096:
    sys.exit('tests/tree/slow.py: not a line for each server')
for pause in (0.0003, 0.001, 0.0001, 0.003) * 4:
    parts = read_slowly(pause)
    seen = b''.join(parts)
    if not seen or not whole.startswith(seen):
        sys.exit('tests/tree/slow.py: a slow reader got something else than a beginning of the text')
    if len(parts) > 1 and seen != whole:
        print('a slow reader got a beginning of the text')
        break
else:
    print('no reader was slow enough: nothing is shown')
