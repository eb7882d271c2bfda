#!/bin/bash
# night_parallel.sh INBOX TAXONOMY OUT [HOSTS]: converts each *.zip of the folder INBOX on several
# hosts by GNU parallel. HOSTS is its list of hosts, as "a,b,c", by default only this one (":").
# Each host converts 50 reports after another, as many at once as it has processors. The folders
# have the same path on all hosts. Ends with status 75 if reports are still to be tried again, 3 if
# a person must look, 1 if reports have faults, and 0 only if each report is converted.

here=$(dirname -- "$(readlink -f -- "$0")")
(($# >= 3)) || { sed -n '2s/^# \(.*\]\): .*/\1/p' "$0" >&2; exit 2; }
inbox=$1 taxonomy=$2 out=$3 hosts=${4:-:}
mkdir -p -- "$out" && night=$(mktemp -d -- "$out/.night.XXXXXX") || exit 3
trap 'rm -rf -- "$night"' EXIT
find "$inbox" -maxdepth 1 -name '*.zip' -print0 | sort -z > "$night/reports"
[[ -s $night/reports ]] || { echo "night_parallel.sh: $inbox has no report" >&2; exit 3; }
# GNU parallel starts nothing, and says nothing, where a service sets no SHELL.
export PARALLEL_SHELL=/bin/bash HOME=${HOME:-/}

# A shell reads the line of a share once more, so all in it is quoted.
packages=("$taxonomy"/*.zip)
share="xbrl-filing {} --taxonomy ${packages[*]@Q} --into ${out@Q} --cache ${out@Q}/.cache \
    --outcomes ${night@Q}/{#}.jsonl --time-limit 3600 || test \$? -eq 1"

# A share that ends with any other status than 0 and 1 is started again, at most three times in all,
# on another host if there is one, and only if 1 GB of memory is free there. What is done or refused
# stays so.
parallel -0 -N "${SHARE:-50}" -j 1 --sshlogin "$hosts" ${SSH:+--ssh "$SSH"} --workdir . \
    --retries 3 --memfree 1G --joblog "$out/.joblog" "$share" < "$night/reports"
"$here/join.sh" "$night/reports" "$night" "$out.jsonl"
