#!/usr/bin/env python3
"""Reads a trace as JSON, one object a line, and writes the steps that were made, as the lines of a scenario. So the trace
of a journal gives back the steps of the journal. A line that is no JSON, a number that is not the next one, or anything
behind a step that was refused ends it with status 1.

Usage: tests/traced.py < TRACE
"""

import json
import sys


def steps(lines):
    """The lines of the steps that were made."""
    is_over = False
    for count, line in enumerate(lines, 1):
        entry = json.loads(line)
        if is_over or entry["number"] != count:
            sys.exit(f"tests/traced.py: line {count} is not that of step {count}")
        if "refused" in entry:
            is_over = True
        else:
            yield " ".join(str(word) for word in entry["step"].values())


if __name__ == "__main__":
    for step in steps(sys.stdin):
        print(step)
