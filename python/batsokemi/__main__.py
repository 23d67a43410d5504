"""python3 -m batsokemi: the tools."""

import sys

from .tools import main

sys.exit(main())
