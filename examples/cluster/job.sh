#!/bin/sh
# One job: splits a layer with dpl and checks what came of it with dpl.
#
# usage: sh job.sh NAME FILE LAYER DATATYPE RULE OVERLAP [TOP]
#
# It writes into the folder $OUT (out, where that isn't set):
#   NAME.gds, NAME.cert   the masks and the certificate
#   NAME.line             what split said, and then what check said
#   NAME.status           the status of split, written last: where it is there, the job is finished
#
# It ends with 0 where there is an answer (done, a conflict, a refusal) and the check agrees, otherwise
# with the status of what failed. $DPL is the program, $WORKERS the threads of a job (1).
set -u
[ $# -eq 6 ] || [ $# -eq 7 ] || {
    sed -n '4s/# //p' "$0" >&2
    exit 3
}
dpl=${DPL:-dpl} out=${OUT:-out}
name=$1 file=$2 layer=$3 datatype=$4 rule=$5 overlap=$6 top=${7:-}
base=$out/$name
mkdir -p "$out"
rm -f "$base.status" "$base.line"

set -- --layer "$layer" --datatype "$datatype" --rule "$rule" --overlap "$overlap" ${top:+--top "$top"}
said=$("$dpl" split "$@" --workers "${WORKERS:-1}" "$file" "$base.gds" "$base.cert")
status=$?
[ "$status" -le 2 ] || {
    echo "job.sh: $name: split ended with $status: $said" >&2
    exit "$status"
}

checked=$("$dpl" check "$@" "$file" "$base.gds" "$base.cert")
check=$?
printf '%s\n' "$said" "$checked" >"$base.line"
# A file that split refuses is refused by check for the same fault.
[ "$check" -eq 0 ] || [ "$checked" = "refused in ${said#refused }" ] || {
    echo "job.sh: $name: $said, but check says: $checked" >&2
    exit "$check"
}
printf '%s\n' "$status" >"$base.status.part" && mv "$base.status.part" "$base.status"
