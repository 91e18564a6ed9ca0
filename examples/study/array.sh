#!/bin/sh
# A task of a job array of Slurm: runs a hundred lines of the file variations, those of its number, and keeps their rows in the file array/NUMBER,
# which is there once all of them are. A task whose file is there does nothing, so the array is handed in once more where tasks died.
#SBATCH --job-name=study
#SBATCH --array=1-36
#SBATCH --ntasks=1
#SBATCH --output=array/%a.log
rows=array/$SLURM_ARRAY_TASK_ID
last=$((100 * SLURM_ARRAY_TASK_ID))
[ -e "$rows" ] || { sed -n "$((last - 99)),${last}p" variations | ./rows.sh > "$rows.part" && mv "$rows.part" "$rows"; }
