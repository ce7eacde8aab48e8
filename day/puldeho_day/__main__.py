"""The command `puldeho`."""
import sys

from .cli import main

sys.exit(main(sys.argv[1:]))
