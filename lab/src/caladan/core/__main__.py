"""python3 -m caladan.core: decides, audits and guards by the C library."""
import sys

from .command import main

sys.exit(main())
