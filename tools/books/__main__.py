"""`./run books` and `./run check`: the books over what was answered. Tested, and not proved; the answers of `books` are the proved program's."""
import os
import sys

sys.dont_write_bytecode = True

from command import main

status = main(sys.argv[1:])
sys.stderr.flush()
os._exit(status)  # what could not be written is not tried again
