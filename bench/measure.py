#!/usr/bin/env python3
"""Runs a command and prints the seconds that it took and the most memory that it held, in KiB.

    bench/measure.py COMMAND WORD...
"""
import resource
import subprocess
import sys
import time

begin = time.perf_counter()
subprocess.run(sys.argv[1:], stdout=subprocess.DEVNULL, stderr=subprocess.DEVNULL, check=False)
took = time.perf_counter() - begin
print(f"{took:.3f} {resource.getrusage(resource.RUSAGE_CHILDREN).ru_maxrss}")
