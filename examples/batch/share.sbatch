#!/bin/bash
#SBATCH --job-name=filings
#SBATCH --cpus-per-task=2
#SBATCH --open-mode=append
# share.sbatch NIGHT TAXONOMY OUT MEMORY: one task of a job array, which converts its share of the
# reports that NIGHT/reports lists. It may use MEMORY MiB. night_slurm.sh submits it.

mapfile -d '' -t listed < "$1/reports"
for ((at = SLURM_ARRAY_TASK_ID - 1; at < ${#listed[@]}; at += SLURM_ARRAY_TASK_COUNT)); do
    share+=("${listed[at]}")
done
((${#share[@]})) || exit 0

# Half of the task's memory for each report in hand: so a report breaks its own limit before Slurm
# ends the whole task.
jobs=${SLURM_CPUS_PER_TASK:-1}
limit=$(($4 * 1024 * 1024 / jobs / 2))

exec xbrl-filing "${share[@]}" --taxonomy "$2"/*.zip --into "$3" --cache "$3/.cache" \
    --outcomes "$1/$SLURM_ARRAY_TASK_ID.jsonl" --jobs "$jobs" --memory-limit "$limit" \
    --time-limit 3600
