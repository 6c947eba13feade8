"""Runs a shell's line in ways of which most leave the environment out."""

import os
import subprocess
import sys

line, path = sys.argv[1], {'PATH': os.environ['PATH']}
os.system(line)
subprocess.run(line, shell=True, env=path)
os.waitpid(os.posix_spawn('/bin/sh', ['sh', '-c', line], path), 0)
if os.fork() == 0:
    os.execve('/bin/sh', ['sh', '-c', line], path)
os.wait()
os.environ.clear()
os.system(f'PATH={path["PATH"]}; {line}')
