#!/bin/sh
# Turns the trail of a SPIN model into steps for `btrun confirm`.
#
# Usage: spin -t -p MODEL | to-steps.sh
#
# Process n of the model is thread n, and a line of the model is that line of the program. A step of
# the trail has its statement in brackets at the end of its line; `assert(1)` is a procedure's end.
awk '$2 == "proc" && /\[.*\]$/ { split($5, at, ":"); print $3, /\[assert\(1\)\]$/ ? "-" : at[2] }'
