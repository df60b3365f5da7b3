#!/bin/sh
#SBATCH --job-name=dpl
#SBATCH --array=1-4
#SBATCH --cpus-per-task=1
#SBATCH --mem=2G
#SBATCH --output=out/slurm-%a.log
#
# Task n runs line n of jobs.txt; --array is as long as that file:
#   mkdir -p out && sbatch --array=1-$(wc -l <jobs.txt) array.slurm
set -eu
WORKERS=${SLURM_CPUS_PER_TASK:-1}
export WORKERS
# shellcheck disable=SC2046
exec sh job.sh $(sed -n "${SLURM_ARRAY_TASK_ID}p" jobs.txt)
