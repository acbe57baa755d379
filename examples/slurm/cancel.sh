#!/bin/sh
# cancel.sh JOB ..: takes jobs out of the queue of Slurm when Snakemake is stopped.
for job in "$@"; do
    scancel "${job%%;*}"
done
