#!/usr/bin/env python3
"""The yardstick: reads each line of standard input as one JSON value by Python's own library (in C), drops it, and prints
how many lines there were."""
import json
import sys

count = 0
for line in sys.stdin.buffer:
    json.loads(line)
    count += 1
print(count)
