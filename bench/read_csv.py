#!/usr/bin/env python3
"""Reads files with Python's csv module, and does nothing with their records.

usage: read_csv.py FILE ..
"""
import csv
import sys

for name in sys.argv[1:]:
    with open(name, newline="", encoding="utf-8") as file:
        for _ in csv.reader(file):
            pass
