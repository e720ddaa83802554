"""MAP arguments of subscriber data: what an update is, how it is written in BER, and how a capture carries it.

They need Python 3.10. Who has an older one is told so, before a module of a newer form fails."""

import sys

if sys.version_info < (3, 10):
    print(f"{sys.argv[0]}: Python 3.10 or later is needed, and this is {sys.version.split()[0]}", file=sys.stderr)
    sys.exit(2)
