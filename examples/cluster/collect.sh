#!/bin/sh
# Tells what came of all jobs, one line each: name, status, what split said, what check said.
#
# usage: sh collect.sh [JOBS]
#
# It ends with 0 where every job has a status of 0, with 1 where some have a conflict or a refusal, and
# with 2 where some aren't finished. Results are in the folder $OUT (out).
set -u
out=${OUT:-out} worst=0
while read -r name _; do
    [ -n "$name" ] || continue
    status=$(cat "$out/$name.status" 2>/dev/null) || status=-
    printf '%s\t%s\t%s\n' "$name" "$status" "$(paste -sd '\t' "$out/$name.line" 2>/dev/null)"
    case $status in
        0) ;;
        -) worst=2 ;;
        *) [ "$worst" -eq 2 ] || worst=1 ;;
    esac
done <"${1:-jobs.txt}"
exit "$worst"
