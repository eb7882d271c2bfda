#!/bin/bash
# night_slurm.sh INBOX TAXONOMY OUT [TASKS [MEMORY]]: converts each *.zip of the folder INBOX by a
# Slurm job array of TASKS tasks, each with MEMORY MiB. While reports are neither converted nor
# refused, it submits the array again with twice the memory, at most four times: what is done stays
# done. The folders are on a file system that all nodes share. Ends with status 75 if reports are
# still to be tried again, 3 if a person must look, 1 if reports have faults, and 0 only if each
# report is converted.

here=$(dirname -- "$(readlink -f -- "$0")")
(($# >= 3)) || { sed -n '2s/^# \(.*\]\): .*/\1/p' "$0" >&2; exit 2; }
inbox=$1 taxonomy=$2 out=$3 tasks=${4:-10} memory=${5:-1000}
mkdir -p -- "$out" && night=$(mktemp -d -- "$out/.night.XXXXXX") || exit 3
trap 'rm -rf -- "$night"' EXIT
find "$inbox" -maxdepth 1 -name '*.zip' -print0 | sort -z > "$night/reports"
[[ -s $night/reports ]] || { echo "night_slurm.sh: $inbox has no report" >&2; exit 3; }

for try in 1 2 3 4; do
    # Its status does not count: an array that is cancelled ends with 0.
    sbatch --wait --array="1-$tasks" --mem="$memory" --output="$out/.slurm-%A_%a.log" \
        "$here/share.sbatch" "$night" "$taxonomy" "$out" "$memory"
    "$here/join.sh" "$night/reports" "$night" "$out.jsonl"
    status=$?
    ((status < 3)) && break
    memory=$((memory * 2))
done
exit "$status"
