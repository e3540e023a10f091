"""Lightning gossip in Python, for the measurements, the examples and the tests. It needs nothing but Python.

- `messages`: the messages of BOLT 7, decoded and encoded, and the lines that offer them to `lgm`;
- `notation`: scripts and their answers with names in place of digits, as the files of tests/scripts have them;
- `networks`: draws synthetic networks that resemble the public one;
- `workloads`: scripts for `lgm` over such a network;
- `three_nodes`: a network of three nodes and two channels, for tests.

Scripts elsewhere find it by the module `top` beside them.
"""
