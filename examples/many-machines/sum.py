#!/usr/bin/env python3
"""Adds up the summaries of the ranges of a test, which `btrun test --json` writes on standard error.

Usage: sum.py FILE..

Each file has the objects of one range, or none if the range was not tried.
"""
import fileinput
import json


def main():
    objects = [json.loads(line) for line in fileinput.input()]
    tests = [it for it in objects if it["kind"] == "test"]
    found = [it for it in tests if it["found"] != "nothing"]
    ended = {way: sum(it["ended"][way] for it in tests) for it in tests for way in it["ended"]}
    runs, calls = (sum(it[name] for it in tests) for name in ("runs", "calls"))
    print(f"found in {len(found)} of {len(tests)} ranges")
    print(f"runs {runs}, calls {calls}, longest {max((it['longest'] for it in tests), default=0)}")
    print("ended: " + ", ".join(f"{way.replace('_', ' ')} {count}" for way, count in ended.items()))


if __name__ == "__main__":
    main()
