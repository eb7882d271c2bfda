#!/usr/bin/env bash
# Ships what is proved here: fills dist/ and dist/lib, and compares both with it.
#
#     packaging/ship.sh
#
# Where .ci/run has passed, it only builds the C library, which proves its crate again. Otherwise it
# runs `rt ci` first, which takes minutes if the kit has kept all proofs. It needs the kit, and ends
# with `shipped: ` and the version. Then run .ci/run, and packaging/bare.sh over new packages.
set -euo pipefail
[[ $# == 0 ]] || { sed -n '2,9s/^# \{0,1\}//p' "$0"; exit 2; }
cd "$(dirname -- "$(readlink -f -- "$0")")/.."
. dist/sources.sh

# Ends as not shipped.
stop() {
    echo "packaging/ship.sh: $*" >&2
    exit 1
}

settings=crates/oim_run/src/settings.rt
kit=$(rt version)
[[ $(<"$settings") == *"$kit"* ]] || stop "VERSION in $settings does not name the kit: $kit"
sum=$(sources_sum .)
library_sum=$(sources_sum . "$library_crate")
if ! is_built_of . "$sum"; then
    rt ci || stop "a crate is not proved, or a test does not pass"
    [[ $(sources_sum .) == "$sum" ]] || stop "the sources were changed while they were proved"
    note_built . "$sum"
fi
if ! is_library_built_of . "$library_sum"; then
    packaging/archive.py || stop "the C library is not built"
    [[ $(sources_sum . "$library_crate") == "$library_sum" ]] || stop "the sources were changed"
    note_library . "$library_sum"
fi
for it in "" -library; do
    tests/dist.py "fill$it"
    tests/dist.py "check$it" --strict
done
echo "shipped: $("$shipped" --version)"
