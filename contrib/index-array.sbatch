#!/bin/sh
#SBATCH --job-name=gdbix
#SBATCH --ntasks=1
#SBATCH --cpus-per-task=1
# sbatch --array=0-99 index-array.sbatch 100 LIST FROM TO [OPTION OF index-one ..]
#
# Stores the files below FROM that LIST names, one a line, at the same place below TO with their indexes. Of N tasks (here 100) the one
# with number I does every N-th file from the I-th on. Tasks that failed are done again with --array=3,7 and the same words; what is there
# stays. The tasks write what is refused to slurm's output files. gdbix and index-one have to be in PATH on the nodes, since slurm runs a
# copy of this script.
set -u

tasks=$1
list=$2
from=$3
to=$4
shift 4
awk -v tasks="$tasks" -v task="$SLURM_ARRAY_TASK_ID" '(NR - 1) % tasks == task' "$list" | while IFS= read -r name; do
    index-one "$@" "$from/$name" "$to/$name" </dev/null || exit
done
