#!/usr/bin/env bash
# survey.sh SOURCES OUT [OPTION..]: compiles each C, C++ and Fortran source below SOURCES by itself with the gcc plugin (make frontend), with the
# options that it names for DejaGnu and OPTIONs, makes region tables of each flow (cargo build --release -p tool), and counts what came of it.
set -euo pipefail
root=$(cd "$(dirname "$0")/.." && pwd)
sources=$(cd "$1" && pwd) out=$2
shift 2
mkdir -p "$out"
out=$(cd "$out" && pwd)
export root sources out
# shellcheck source=tests/sources.sh
. "$root/tests/sources.sh"
export -f wrapper_of options_of

one() { # one SOURCE OPTION..
    local source=$1 name=${1#"$sources"/} wrapper own
    shift
    name=${name//\//_}
    wrapper=$(wrapper_of "$source")
    own=$(options_of "$source")
    for more in "$own" ""; do
        # shellcheck disable=SC2086 # the options are several words
        if (cd "$out" && timeout 300 "$root/target/frontend/$wrapper" -fopenmp -w $more "$@" -I"$(dirname "$source")" -S -o "$name.s" "$source") \
            >"$out/$name.log" 2>&1; then
            rm "$out/$name.s"
            "$root/rust/target/release/bohrali" regions "$out/$name.flow" -o "$out/$name.tables" >"$out/$name.regions" 2>&1 ||
                echo "refused: $name"
            return
        fi
    done
    rm -f "$out/$name.flow"
}
export -f one

sources_below "$sources" |
    xargs -0 -P "$(nproc)" -I{} bash -c 'one "$@"' one {} "$@" | sort

number() { # number PATTERN FILES: rows like this, in all notes
    find "$out" -path "*.tables/$2" -print0 | xargs -0 cat | grep -c "$1" || true
}
compiled=$(find "$out" -maxdepth 1 -name '*.flow' | wc -l)
echo "units compiled $compiled"
echo "functions $(find "$out" -maxdepth 1 -name '*.flow' -print0 | xargs -0 cat | grep -c '^function')"
echo "functions given up $(number '^not read' program.txt)"
echo "regions $(number '^table: ' program.txt)"
echo "charts $(find "$out" -path '*.tables/*.csv' | wc -l)"
find "$out" -path '*.tables/*.txt' -print0 | xargs -0 cat | grep '^no chart\|^taken for less\|^lost to\|^several teams' |
    sed 's/, [0-9]* times$//; s/, at .*//; s/[0-9]\+ nodes are [0-9]\+/N nodes are N/' | sort | uniq -c | sort -rn
