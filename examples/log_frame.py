"""Reads a log into a pandas table: `python3 log_frame.py KINDS < LOG` prints the links of its telegrams."""

import sys

import etcs
import pandas

frame = etcs.frame(sys.stdin.buffer, sys.argv[1])
# the text before the digits as a time of day; NaT where it is none
frame["time"] = pandas.to_timedelta(frame["front"], errors="coerce")
links = frame[frame.name == "D_LINK"]
print(links[["line", "time", "number", "meaning"]].to_string(index=False))
