#!/bin/sh
start=$(date +%s%N)
"$PROGRAM" "$@"
status=$?
echo $(($(date +%s%N) - start)) >> "$TIMES"
exit $status
