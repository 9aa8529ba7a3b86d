"""A client of the program clerk, which is begun and not built today, that sends a job again whenever its answer is late: the
job is done once.

    python3 clients/resend.py FILE
"""
import os
import subprocess
import sys

clerk = os.path.join(os.path.dirname(__file__), "..", "target", "bin", "clerk")
job = "submit 2 7 cut 0 6 35 35.5"
with subprocess.Popen([clerk, sys.argv[1]], stdin=subprocess.PIPE, stdout=subprocess.PIPE, text=True) as program:
    # Sent, sent again as after a timeout, then done, and sent again.
    for line in (job, job, "turn", job):
        program.stdin.write(line + "\n")
        program.stdin.flush()
        print(line, "->", program.stdout.readline(), end="")
    program.stdin.close()
