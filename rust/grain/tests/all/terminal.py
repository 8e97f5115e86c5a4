# Runs a command with standard error on a terminal or a pipe, feeds it by a program, and prints what came there.
import os, pty, subprocess, sys

mode, feeder, *command = sys.argv[1:]
near, far = pty.openpty() if mode == 'terminal' else os.pipe()
feeding = subprocess.Popen([sys.executable, '-c', feeder], stdout=subprocess.PIPE)
subprocess.run(command, stdin=feeding.stdout, stdout=subprocess.DEVNULL, stderr=far)
os.close(far)
feeding.wait()
said = b''
try:
    while part := os.read(near, 4096):
        said += part
except OSError:
    pass  # a terminal that was hung up
sys.stdout.buffer.write(said)
