#!/usr/bin/env bash
# Tries the packages in a bare system: installs them, converts examples, removes them.
#
#     packaging/bare.sh FOLDER [SUITE]
#
# FOLDER has the packages that packaging/deb.py made, and may have the wheel. SUITE is a release of
# Debian, `bookworm` without an argument. The programs, the C library with a compiler, and the Python
# package are each installed by one command, and the programs of docs/MANUAL.md convert an example.
# Needs root, debootstrap and a mirror: the variable MIRROR may name one, and BASE the folder of a
# system that debootstrap has made. The bare system is in a temporary folder, which is removed. The
# last line is `bare SUITE: passed`.
set -euo pipefail

[[ $# -ge 1 && $# -le 2 ]] || { sed -n '2,11s/^# \{0,1\}//p' "$0"; exit 2; }
debs=$(readlink -f -- "$1")
suite=${2-bookworm}
top=$(dirname -- "$(readlink -f -- "$0")")/..
root=$(mktemp -d)
chmod 755 "$root"
trap 'rm -rf -- "$root"' EXIT

stop() {
    echo "bare $suite: FAILED: $*"
    exit 1
}

# Runs a command in the folder /root of the system.
in_system() {
    chroot "$root" env -C /root DEBIAN_FRONTEND=noninteractive PATH=/usr/sbin:/usr/bin:/sbin:/bin "$@"
}

# Installs packages by one command.
install() {
    in_system apt-get install -y -qq --no-install-recommends "$@" >/dev/null 2>"$root/root/errors" ||
        { tail -n 3 "$root/root/errors"; stop "apt-get install $*"; }
}

# Whether there are such files in FOLDER.
has() {
    compgen -G "$debs/$1" >/dev/null
}

# Copies the example of a language from the manual into the system.
take_example() {
    sed -n "/^\`\`\`$1\$/,/^\`\`\`\$/{/^\`\`\`/!p}" "$top/docs/MANUAL.md" >"$root/root/$2"
}

# Compares what a command in the system prints with a file.
must_print() {
    local wanted=$1
    shift
    in_system "$@" | cmp -s - "$wanted" || stop "$*"
}

# Makes the bare system. A release that is newer than debootstrap is made as the newest it knows.
make_system() {
    local script=/usr/share/debootstrap/scripts/$suite
    [[ -e $script ]] || script=${script%/*}/sid
    debootstrap --variant=minbase "$suite" "$root" "${MIRROR-http://deb.debian.org/debian}" "$script" >"$root.log" 2>&1 ||
        { tail -n 3 "$root.log"; stop "debootstrap"; }
    rm -f "$root.log"
}

if [[ -n ${BASE-} ]]; then
    cp -a "$BASE/." "$root"
else
    make_system
fi
cp /etc/resolv.conf "$root/etc/resolv.conf"
cp "$debs"/*.deb "$root/root/"
! has '*.whl' || cp "$debs"/*.whl "$root/root/"
cp -r "$top/examples" "$root/root/"
in_system apt-get update -qq

quarterly=(examples/quarterly/meta.json --types examples/quarterly/types.csv)
tables=$(cd "$top" && find examples/quarterly -name '*.csv')
filing=(examples/filing/report --taxonomy examples/filing/taxonomy)
document=$root/root/document filed=$root/root/filed
(cd "$top" && dist/xbrl-json "${quarterly[@]}" >"$document")
(cd "$top" && XBRL_JSON=dist/xbrl-json ./xbrl-filing "${filing[@]}" >"$filed")

install "./$(basename "$debs"/xbrl-json_*.deb)"
must_print "$document" xbrl-json "${quarterly[@]}"
must_print "$filed" xbrl-filing "${filing[@]}"
if has 'libxbrl-json-dev_*.deb'; then
    shared=./$(basename "$debs"/libxbrl-json0_*.deb)
    install "$shared" "./$(basename "$debs"/libxbrl-json-dev_*.deb)" gcc libc6-dev pkg-config
    take_example c convert.c
    # shellcheck disable=SC2016
    in_system sh -c 'cc -o convert convert.c $(pkg-config --cflags --libs xbrl_json)' || stop "cc"
    # shellcheck disable=SC2086
    must_print "$document" ./convert "${quarterly[0]}" "${quarterly[2]}" $tables
    take_example python convert.py
    install "$shared" "./$(basename "$debs"/python3-xbrl-json_*.deb)"
    must_print "$document" python3 convert.py examples/quarterly
    must_print "$filed" python3 -c 'import sys, xbrl_json.filings as filings
sys.stdout.buffer.write(filings.convert(sys.argv[1], sys.argv[3:]))' "${filing[@]}"
fi

if has '*.whl'; then
    install python3-venv
    in_system python3 -m venv venv
    in_system venv/bin/pip install -q --no-index "./$(basename "$debs"/*.whl)" || stop "pip install"
    must_print "$filed" venv/bin/xbrl-filing "${filing[@]}"
    ! has 'libxbrl-json-dev_*.deb' || must_print "$document" venv/bin/python convert.py examples/quarterly
fi

names=$(for deb in "$debs"/*.deb; do dpkg-deb -f "$deb" Package; done)
# shellcheck disable=SC2086
in_system apt-get purge -y -qq $names >/dev/null 2>&1 || stop "removal"
left=$(find "$root/usr" "$root/etc" "$root/var" -name '*xbrl*')
[[ -z $left ]] || stop "left after removal: $left"
echo "bare $suite: passed"
