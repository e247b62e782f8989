"""The processor time and the memory of a command, for the benchmarks beside it."""
import json
import resource
import subprocess
import sys

# A small process of its own runs the command: what a process has held counts as the memory of those that it starts.
WATCH = """
import json, os, subprocess, sys
process = subprocess.Popen(sys.argv[1:], stdout=subprocess.DEVNULL)
_, status, usage = os.wait4(process.pid, 0)
print(json.dumps([os.waitstatus_to_exitcode(status), usage.ru_utime + usage.ru_stime, usage.ru_maxrss]))
"""


def spent(command):
    """Returns the least processor time of three runs, in seconds."""
    least = None
    for _ in range(3):
        before = resource.getrusage(resource.RUSAGE_CHILDREN)
        subprocess.run(command, stdout=subprocess.DEVNULL, check=True)
        after = resource.getrusage(resource.RUSAGE_CHILDREN)
        time = after.ru_utime - before.ru_utime + after.ru_stime - before.ru_stime
        least = time if least is None else min(least, time)
    return least


def spent_and_held(command):
    """Returns the least processor time of three runs, in seconds, and the most memory, in kilobytes."""
    least, most = None, 0
    for _ in range(3):
        watched = subprocess.run([sys.executable, "-c", WATCH, *command], stdout=subprocess.PIPE, check=True)
        status, time, memory = json.loads(watched.stdout)
        if status != 0:
            raise SystemExit(f"{command}: status {status}")
        least = time if least is None else min(least, time)
        most = max(most, memory)
    return least, most
