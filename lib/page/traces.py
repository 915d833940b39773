"""traces.py TRACE CALLS: looks at a trace, and says 'ok' or 'FAILED' of each thing that was looked at, on a line of its own."""
import json
import sys


def say(name, holds):
    print("ok" if holds else "FAILED", name)


with open(sys.argv[1], encoding="utf-8") as file:
    trace = json.load(file)
events = [event for event in trace["traceEvents"] if event["ph"] == "X"]
calls = [event for event in events if "args" in event]
nested = [event for event in events if "args" not in event]
say("trace: an event a call", len(calls) == int(sys.argv[2]))
say("trace: each has a name, a lane and times", all(
    isinstance(it["name"], str) and it["ts"] >= 0 and it["dur"] >= 0 and it["tid"] >= 0 and it["pid"] == 1 for it in events))
lanes = {}
for call in calls:
    lanes.setdefault(call["tid"], []).append((call["ts"], call["ts"] + call["dur"]))
overlaps = 0
for lane in lanes.values():
    lane.sort()
    overlaps += sum(one[1] > other[0] for one, other in zip(lane, lane[1:]))
say("trace: calls in a lane never overlap", overlaps == 0)
say("trace: each lane has a name", {it["tid"] for it in trace["traceEvents"] if it["name"] == "thread_name"} == set(range(len(lanes))))
within = sum(
    any(begin <= it["ts"] and it["ts"] + it["dur"] <= end for begin, end in lanes.get(it["tid"], ())) for it in nested)
say("trace: what ran lies within its call", within == len(nested))
say("trace: preprocessors and compilers", {it["name"] for it in nested} <= {"preprocessor", "compiler"})
