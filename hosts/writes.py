#!/usr/bin/env python3
"""Prints a script of so many writes to the root: the writes of `hosts/c/host.c`, as lines.

    python3 hosts/writes.py COUNT
"""

import sys

for number in range(int(sys.argv[1])):
    leaf = number * 7919 % 1048576
    print("write p", leaf // 4096, leaf % 4096, f"{number % 251:02x}" * 512)
