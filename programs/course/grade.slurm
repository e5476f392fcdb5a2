#!/bin/bash
#SBATCH --job-name=grade
#SBATCH --ntasks=1
#SBATCH --cpus-per-task=1
#SBATCH --mem=256M
# The array of jobs by which grade.sh --slurm grades: grade.slurm WORK TASKS HERE. Each task takes every TASKS-th line of WORK/todo.
# XV_GRADE, XV_PICTURE and EXERCISE come from grade.sh. The folders have the same paths on each node.
work=$1 tasks=$2 here=$3
status=0
while IFS= read -r job; do
    "$here/grade_one.sh" "$job" || status=2
done < <(awk -v tasks="$tasks" -v own="$SLURM_ARRAY_TASK_ID" 'NR % tasks == own' "$work/todo")
exit "$status"
