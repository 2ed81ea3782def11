"""A host that dies of some requests: frail_host.py HOST..

It does what HOST does until a call begins with {"poison": then both die. To one that begins with {"babble" it answers something else.
"""
import os
import signal
import subprocess
import sys

host = subprocess.Popen(sys.argv[1:], stdin=subprocess.PIPE)
for line in sys.stdin.buffer:
    if b' {"poison"' in line:
        host.kill()
        host.wait()
        os.kill(os.getpid(), signal.SIGKILL)
    if b' {"babble"' in line:
        line = b"- - - -\n"
    host.stdin.write(line)
    host.stdin.flush()
