"""Tests of the client, which run the real program: that of TUPLE_STORE, else the one that the gate leaves in the checkout."""
