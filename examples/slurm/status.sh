#!/bin/sh
# status.sh JOB: says 'running', 'success' or 'failed' of a job of Slurm, as Snakemake asks.
# sacct knows ended jobs where accounting is on, scontrol for some minutes where it isn't. A job that neither knows any
# more says failed, and so is counted again.
job=${1%%;*}
state=$(sacct --allocations --noheader --parsable2 --format=State --jobs="$job" 2>/dev/null | head -n 1)
if [ -z "$state" ]; then
    state=$(scontrol --oneliner show job "$job" 2>/dev/null | sed -n 's/.*JobState=\([A-Z_]*\).*/\1/p')
fi
case "$state" in
COMPLETED) echo success ;;
PENDING | CONFIGURING | RUNNING | COMPLETING | SUSPENDED | REQUEUED | RESIZING) echo running ;;
*) echo failed ;;
esac
