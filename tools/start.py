"""What each tool does before it imports the package: a Python that is too old is reported, and
Ctrl-C ends the tool without a traceback while it loads. (Older Pythons can read this file.)"""
import gc
import signal
import sys

if sys.version_info < (3, 9):
    name = sys.argv[0].rpartition("/")[2]
    this = (name,) + tuple(sys.version_info[:2])
    sys.stderr.write("%s: Python 3.9 or later is needed, and this is %d.%d\n" % this)
    sys.exit(125 if name == "execute" else 1)
if signal.getsignal(signal.SIGINT) is signal.default_int_handler:
    signal.signal(signal.SIGINT, signal.SIG_DFL)  # `main` sets the handler again
gc.disable()  # what is loaded is no garbage; `main` enables it again
