"""A client of the program edit: sends each job and waits for its answer.

    python3 clients/ask.py FILE JOB ..
"""
import os
import subprocess
import sys

edit = os.path.join(os.path.dirname(__file__), "..", "target", "bin", "edit")
with subprocess.Popen([edit, sys.argv[1]], stdin=subprocess.PIPE, stdout=subprocess.PIPE, text=True) as program:
    for job in sys.argv[2:]:
        program.stdin.write(job + "\n")
        program.stdin.flush()
        print(program.stdout.readline(), end="")
    program.stdin.close()
