"""measured FILE PROGRAM WORD..: runs the program, and writes to the open file of this number how many kilobytes of
memory it took at most. The kernel counts what the process that starts a program holds, too: this one holds little."""

import os
import sys

report, *command = sys.argv[1:]
os.set_inheritable(int(report), False)
_, status, usage = os.wait4(os.posix_spawn(command[0], command, os.environ), 0)
os.write(int(report), str(usage.ru_maxrss).encode())
sys.exit(os.waitstatus_to_exitcode(status))
