#!/usr/bin/env python3
"""Follows a metadata log, and prints each record as it comes.

usage: python/examples/follow_log.py <batches"""
import os
import struct
import sys

sys.path.insert(0, os.path.dirname(os.path.dirname(os.path.abspath(__file__))))
from pibranog import Door

with Door() as door:
    while head := sys.stdin.buffer.read(12):
        batch = head + sys.stdin.buffer.read(struct.unpack(">qi", head)[1])
        for record in door.log_records(batch):
            print(record["offset"], record.get("type", "CONTROL"), record.get("data", ""), flush=True)
