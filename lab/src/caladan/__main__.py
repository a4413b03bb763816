"""python3 -m caladan: as caladan_lab."""
import sys

from .command import main

sys.exit(main())
