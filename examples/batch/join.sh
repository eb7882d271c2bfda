#!/bin/bash
# join.sh REPORTS SHARES FILE: joins the outcomes of a night into FILE, and ends with the status of
# the night. REPORTS lists the reports, with a zero byte after each. The folder SHARES has a file of
# outcomes of each share of them.
#
# Status 75: reports are to be tried again. 3: a person must look, because reports have failed or
# have no outcome. 1: reports have faults. 0: each report is converted.

joined=$3
reports=$(tr -dc '\0' < "$1" | wc -c) || exit 3
find "$2" -name '*.jsonl' -exec cat {} + > "$joined" || exit 3

# Prints how many reports have one of these outcomes.
count() { grep -cE "\"outcome\": \"($1)\"" "$joined"; }

lack=$((reports - $(wc -l < "$joined")))
((lack == 0)) || echo "${0##*/}: $lack of $reports reports have no outcome" >&2
(($(count 'read|memory|thread|signal|time-limit|memory-limit|busy') == 0)) || exit 75
refused=$(count refused)
((lack == 0 && $(count 'done') + refused == reports)) || exit 3
((refused == 0))
