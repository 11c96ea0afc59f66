"""`python3 -m diag_client.netlist` is the command `diag-netlist`."""

from __future__ import annotations

import sys

from .convert.netlist import main

if __name__ == "__main__":
    sys.exit(main())
