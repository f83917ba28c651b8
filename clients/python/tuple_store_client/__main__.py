"""Runs `tuplectl` as `python3 -m tuple_store_client`."""

import sys

from .command_line import main

sys.exit(main())
