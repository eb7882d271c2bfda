# shellcheck shell=bash
# Which sources a program was made from. For ./xbrl-json, tests/run and .ci/run, which read this file with `.`, and for tests/dist.py.
# Needs bash, sha256sum and the coreutils alone. TOP is the top of a repository, or of a copy of one.
#
# The build of the program reads its kit, and of the repository exactly this: HANDLES, the lines of crates.txt of the program's crate and
# of those below it, and the files in src/, specs/ and proofs/ of these crates. The sum of the sources is over all that, in byte order, with
# the paths, so a crate of tests, a comment in crates.txt, a wrong body or a document is no change of the sources.
#
# A program's note, dist/SOURCES and crates/xbrl_json_cli/out/SOURCES, has lines `NAME: VALUE`. `sources` is the sum of the sources, `kit`
# the kit's line, `program` the sum of the program as it was linked, `xbrl-json` that of the stripped one (in dist/ alone), and `note`,
# always the last line, the sum of the lines above it.

program_crate=xbrl_json_cli
library_crate=xbrl_json_c

# lines_of_program TOP [CRATE]: the lines of crates.txt that the program, or another crate, is made from, without comments, in byte order.
lines_of_program() {
    local row name
    local -i at
    local -A lines=() taken=()
    local -a due=("${2-$program_crate}") below
    while IFS= read -r row || [[ -n $row ]]; do
        row=${row%%#*}
        row=${row#"${row%%[![:space:]]*}"}
        row=${row%"${row##*[![:space:]]}"}
        name=${row%%[[:space:]:]*}
        [[ -z $name ]] || lines[$name]=$row
    done <"$1/crates.txt"
    for ((at = 0; at < ${#due[@]}; at++)); do
        name=${due[at]}
        [[ -n ${lines[$name]-} && -z ${taken[$name]-} ]] || continue
        taken[$name]=${lines[$name]}
        IFS=$' \t,' read -ra below <<<"${lines[$name]#*:}"
        due+=("${below[@]}")
    done
    [[ -n ${taken[${2-$program_crate}]-} ]] && printf '%s\n' "${taken[@]}" | LC_ALL=C sort
}

# sources_sum TOP [CRATE]: the sum of the sources of the program, or of another crate.
sources_sum() (
    shopt -s globstar nullglob dotglob
    set -o pipefail
    export LC_ALL=C
    lines=$(lines_of_program "$@") && cd -- "$1" || exit
    files=(HANDLES)
    while read -r line; do
        for path in "crates/${line%%[[:space:]:]*}"/{src,specs,proofs}/**; do
            [[ -d $path ]] || files+=("$path")
        done
    done <<<"$lines"
    sums=$(sha256sum -- "${files[@]}" | sort -k 2) || exit
    printf '%s\n' "$lines" "$sums" | sha256sum | cut -d' ' -f1
)

# sum_of FILE: its sum.
sum_of() {
    local line
    line=$(sha256sum -- "$1" 2>/dev/null) && printf '%s\n' "${line%% *}"
}

# noted NOTE NAME: what a note has under a name.
noted() {
    local line
    while IFS= read -r line; do
        [[ $line == "$2: "* ]] && printf '%s\n' "${line#*: }" && return
    done <"$1"
    return 1
}

# is_noted FILE NAME NOTE: whether the note is whole and names this file's sum.
is_noted() {
    [[ -f $1 && -f $3 ]] && [[ $(noted "$3" note) == "$(head -n -1 -- "$3" | sha256sum | cut -d' ' -f1)" ]] &&
        [[ $(noted "$3" "$2") == "$(sum_of "$1")" ]]
}

# write_note NOTE LINE..: writes a note of these lines.
write_note() {
    local note=$1 lines
    shift
    lines=$(printf '%s\n' "$@")
    printf '%s\nnote: %s\n' "$lines" "$(printf '%s\n' "$lines" | sha256sum | cut -d' ' -f1)" >"$note"
}

# The program that was proved and built here, the one that is shipped, and their notes.
built=crates/$program_crate/out/$program_crate
built_note=crates/$program_crate/out/SOURCES
shipped=dist/xbrl-json
shipped_note=dist/SOURCES

# is_built_of TOP SUM: whether the program that was proved here is of the sources of this sum.
is_built_of() {
    [[ -n $2 ]] && is_noted "$1/$built" program "$1/$built_note" && [[ $(noted "$1/$built_note" sources) == "$2" ]]
}

# is_shipped_whole TOP: whether what is shipped is as it was made.
is_shipped_whole() {
    is_noted "$1/$shipped" xbrl-json "$1/$shipped_note"
}

# is_shipped_of TOP SUM: whether the program that is shipped is of the sources of this sum.
is_shipped_of() {
    [[ -n $2 ]] && is_shipped_whole "$1" && [[ $(noted "$1/$shipped_note" sources) == "$2" ]]
}

# note_built TOP SUM: notes that the program of TOP was proved and built from the sources of this sum.
note_built() {
    local kit sum
    kit=$(rt version) && sum=$(sum_of "$1/$built") && write_note "$1/$built_note" "sources: $2" "kit: $kit" "program: $sum"
}

# The C library: the static library that was proved and built here, the folder of the one that is shipped, and their notes. dist/lib/SOURCES
# has the lines `sources`, `kit`, `library` (the sum of the static library as it was built), one for each file of dist/lib, and `note`.
#
# library_required: whether dist/lib must be there, `yes` or `no`. With `yes` .ci/run also builds the library, and compares dist/lib with it.
# shellcheck disable=SC2034
library_required=yes
library_built=crates/$library_crate/out/lib$library_crate.a
library_built_note=crates/$library_crate/out/SOURCES
library_files="libxbrl_json.a libxbrl_json.so.0 xbrl_json.pc"
library_shipped=dist/lib
library_shipped_note=dist/lib/SOURCES

# is_library_built_of TOP SUM: whether the static library that was proved here is of the sources of this sum.
is_library_built_of() {
    [[ -n $2 ]] && is_noted "$1/$library_built" library "$1/$library_built_note" && [[ $(noted "$1/$library_built_note" sources) == "$2" ]]
}

# is_library_whole TOP: whether each file of the shipped library is as it was made.
is_library_whole() {
    local file
    for file in $library_files; do
        is_noted "$1/$library_shipped/$file" "$file" "$1/$library_shipped_note" || return
    done
}

# note_library TOP SUM: notes that the static library of TOP was proved and built from the sources of this sum.
note_library() {
    local kit sum
    kit=$(rt version) && sum=$(sum_of "$1/$library_built") &&
        write_note "$1/$library_built_note" "sources: $2" "kit: $kit" "library: $sum"
}
