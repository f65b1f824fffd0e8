# Runs a program between two pipes that do not block on its side, which is fed in pieces and whose output is read late:
#   tests/nonblocking.py PROGRAM <INPUT >OUTPUT
import os
import subprocess
import sys
import threading
import time

its_input, feed = os.pipe()
collect, its_output = os.pipe()
os.set_blocking(its_input, False)
os.set_blocking(its_output, False)
program = subprocess.Popen(sys.argv[1:], stdin=its_input, stdout=its_output)
os.close(its_input)
os.close(its_output)


def send():
    with os.fdopen(feed, "wb", buffering=0) as pipe:
        while piece := sys.stdin.buffer.read(30000):
            time.sleep(0.01)
            while piece:
                piece = piece[pipe.write(piece) :]


threading.Thread(target=send).start()
time.sleep(0.3)
while piece := os.read(collect, 65536):
    sys.stdout.buffer.write(piece)
sys.exit(program.wait())
