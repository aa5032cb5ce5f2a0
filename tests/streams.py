"""Runs a program on a file with a stream of an unusual kind, and passes on what it writes, words and status.

usage: python3 tests/streams.py out|in|terminal FILE PROGRAM [ARGUMENT..]

  out        standard output is a pipe that does not block, with a slow reader; and it is told where the program was
             busy for more than half of the time
  in         standard input is a pipe that does not block, with a slow writer
  terminal   standard input is a terminal, at which the file is typed and then Ctrl-D
"""
import os
import pty
import resource
import subprocess
import sys
import termios
import threading
import time

PIECE = 16384


def slow_reader(file, program):
    began = time.monotonic()
    ours, theirs = os.pipe()
    os.set_blocking(theirs, False)
    with open(file, "rb") as text, subprocess.Popen(program, stdin=text, stdout=theirs) as running:
        os.close(theirs)
        time.sleep(0.6)
        while piece := os.read(ours, PIECE):
            sys.stdout.buffer.write(piece)
            time.sleep(0.005)
    used = resource.getrusage(resource.RUSAGE_CHILDREN)
    if used.ru_utime + used.ru_stime > (time.monotonic() - began) / 2:
        print("streams.py: the program was busy while it waited", file=sys.stderr)
    return running.returncode


def typed(running, file, end, pause, last):
    """What the program writes while the file goes to it through `end`, in pieces."""

    def type_all():
        with open(file, "rb") as text, open(end, "wb", buffering=0, closefd=not last) as keys:
            try:
                while piece := text.read(PIECE):
                    while piece:
                        piece = piece[keys.write(piece):]
                    time.sleep(pause)
                keys.write(last)
            except BrokenPipeError:
                pass  # the program has ended

    typist = threading.Thread(target=type_all)
    typist.start()
    sys.stdout.buffer.write(running.stdout.read())
    typist.join()
    return running.wait()


def slow_writer(file, program):
    theirs, ours = os.pipe()
    os.set_blocking(theirs, False)
    running = subprocess.Popen(program, stdin=theirs, stdout=subprocess.PIPE)
    os.close(theirs)
    return typed(running, file, ours, 0.002, b"")


def terminal(file, program):
    ours, theirs = pty.openpty()
    settings = termios.tcgetattr(theirs)
    settings[3] &= ~termios.ECHO
    termios.tcsetattr(theirs, termios.TCSANOW, settings)
    running = subprocess.Popen(program, stdin=theirs, stdout=subprocess.PIPE)
    os.close(theirs)
    return typed(running, file, ours, 0, b"\x04")


kinds = {"out": slow_reader, "in": slow_writer, "terminal": terminal}
if len(sys.argv) < 4 or sys.argv[1] not in kinds:
    sys.exit(__doc__)
sys.exit(kinds[sys.argv[1]](sys.argv[2], sys.argv[3:]))
