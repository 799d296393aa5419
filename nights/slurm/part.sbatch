#!/bin/sh
# A task of the array job that `submit` gives to Slurm: one night of the part whose number is in
# this task's line of the list. Findings fail no task.
here=$1 list=$2 part=$(sed -n "$(($3 + SLURM_ARRAY_TASK_ID))p" "$2") seconds=$4
shift 4
echo "part $part of $list on $(uname -n), start $((${SLURM_RESTART_COUNT:-0} + 1))"
"$here/parallel/part" --part "$part" --end "$(($(date +%s) + seconds))" "$@"
status=$?
[ "$status" -eq 1 ] || exit "$status"
