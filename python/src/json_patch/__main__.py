"""python -m json_patch: the command json-patch."""
import sys

from ._command import main

sys.exit(main())
