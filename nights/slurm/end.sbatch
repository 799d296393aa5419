#!/bin/sh
# The job that ends a night, after all tasks, however they ended: its message goes to MAIL, or to
# the output of this job. The message lies in the folder until it was sent, so that this job can be
# queued again.
here=$1 name=$2 state=$3
shift 3
export INVOCATION_ID="slurm-$SLURM_JOB_ID"
"$here/parallel/end" --for-tell "$@"
status=$?
EXIT_STATUS=$status "$here/ocfl-scrub-reports" tell -- "$name" "$state" || exit 3
[ "$status" -eq 1 ] || exit "$status"
