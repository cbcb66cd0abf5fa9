"""`python3 -m navgrieso` is the command `nav`."""
import sys

from .command import main

sys.exit(main())
