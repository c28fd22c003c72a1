"""signalled.py SIGNAL STATUS PIPE: sends the signal to ./strips while it reads the named pipe. It ends with the status, and its program with it: the
pipe has no reader any more."""

import array
import fcntl
import os
import signal
import subprocess
import sys
import termios
import time

name, status, pipe = sys.argv[1], int(sys.argv[2]), sys.argv[3]
# SIGINT and SIGQUIT may be ignored where this was started, and would stay so in the script.
for number in (signal.SIGINT, signal.SIGQUIT):
    signal.signal(number, signal.SIG_DFL)
signal.signal(signal.SIGPIPE, signal.SIG_IGN)
run = subprocess.Popen(["sh", "-c", 'exec ./strips <"$0"', pipe], stdout=subprocess.DEVNULL)
with open(pipe, "wb", buffering=0) as writer:
    # The program takes a byte less than a record, and waits for more.
    writer.write(bytes(15))
    waiting = array.array("i", [15])
    while waiting[0]:
        time.sleep(0.05)
        fcntl.ioctl(writer, termios.FIONREAD, waiting)
    os.kill(run.pid, getattr(signal, "SIG" + name))
    ended = run.wait()
    if ended != status:
        sys.exit(f"status {ended}")
    try:
        writer.write(bytes(1))
    except BrokenPipeError:
        sys.exit(0)
sys.exit("the program still reads")
