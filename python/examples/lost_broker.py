#!/usr/bin/env python3
"""Prints the under-replicated partitions of an image, and who would lead each partition if a broker went.

usage: python/examples/lost_broker.py BROKER <image"""
import os
import sys

sys.path.insert(0, os.path.dirname(os.path.dirname(os.path.abspath(__file__))))
from pibranog import Door, partitions_of

with Door() as door:
    records = door.image_records(sys.stdin.buffer.read())
    brokers = [it["data"] for it in records if it["type"] == "REGISTER_BROKER_RECORD"]
    left = [it["brokerId"] for it in brokers if not it["fenced"] and it["brokerId"] != int(sys.argv[1])]
    for partition in partitions_of(records):
        state = "under-replicated" if partition.is_under_replicated else "in sync"
        leader, choice = door.elect(partition, left)
        print(f"{partition.topic}-{partition.index} {state}, leader {partition.leader}; then {leader} ({choice})")
