"""How the scripts of this folder time a program that reads a file from standard input."""
import os
import subprocess
import sys
import time


def timed(words, path):
    """The least time of five, in seconds, the peak memory in bytes, and what was printed."""
    best = peak = said = None
    for _ in range(5):
        with open(path, "rb") as file:
            begun = time.perf_counter()
            child = subprocess.Popen(words, stdin=file, stdout=subprocess.PIPE)
            said = child.stdout.read()
            _, status, usage = os.wait4(child.pid, 0)
            spent = time.perf_counter() - begun
        if status:
            sys.exit(f"{words[0]} ended with {status}: {said[:200]!r}")
        best = spent if best is None else min(best, spent)
        peak = usage.ru_maxrss * 1024
    return best, peak, said
