#!/usr/bin/env bash
#SBATCH --job-name=sweep
#SBATCH --array=1-50
#SBATCH --cpus-per-task=4
#SBATCH --output=/dev/null
#SBATCH --error=sweep-%A.txt
#SBATCH --open-mode=append
# Runs a sweep as an array of Slurm, of which task K runs share K of OF, from the top of the repository or, with the
# installed package, from any folder. OF is how many shares there are, also where --array names a few of them again:
#   sbatch examples/sweeps/slurm.sh OF RESULTS SCENARIO --vary seed=1..1000
set -eu
if [ $# -lt 3 ]; then
  echo "usage: sbatch examples/sweeps/slurm.sh OF RESULTS SCENARIO --vary SETTING=VALUES .." >&2
  exit 2
fi
command=./sqs_rehearse
if [ ! -x $command ]; then command=sqs_rehearse; fi
exec $command sweep "${@:3}" --share "$SLURM_ARRAY_TASK_ID/$1" --results "$2" --jobs "$SLURM_CPUS_PER_TASK"
