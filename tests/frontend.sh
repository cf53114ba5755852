#!/usr/bin/env bash
# Builds the gcc plugin, compiles the programs of rust/frontend/tests/programs with it at -O0 and -O2, and holds the answers for
# them to those that are expected, as the stored flows are held to them. GCC, GXX and GFORTRAN name the compilers, one version of all.
# FLOWS names a directory to keep the flows in.
set -euo pipefail
cd "$(dirname "$0")/.."

gcc=${GCC:-gcc} gxx=${GXX:-g++} gfortran=${GFORTRAN:-gfortran}
if ! make --silent -C frontend/gcc GCC="$gcc" headers; then
    echo "frontend: the plugin was not built, and no program was compiled with it"
    exit 0
fi
make --silent -C frontend/gcc GCC="$gcc"
wrappers=$PWD/target/frontend
flows=${FLOWS:-$(mktemp -d)}
test -n "${FLOWS:-}" || trap 'rm -rf "$flows"' EXIT

compile() { # compile LEVEL SOURCE
    case $2 in
    *.f90) wrapper=bohrali-gfortran compiler=$gfortran ;;
    *.c) wrapper=bohrali-gcc compiler=$gcc ;;
    *) wrapper=bohrali-g++ compiler=$gxx ;;
    esac
    if ! command -v "$compiler" >/dev/null; then
        echo "frontend: $compiler is not there: $2 was not compiled"
        return
    fi
    mkdir -p "$flows/$1/$(dirname "$2")"
    BOHRALI_GCC=$gcc BOHRALI_GXX=$gxx BOHRALI_GFORTRAN=$gfortran \
        "$wrappers/$wrapper" -fopenmp "-$1" -w -S -o "$flows/$1/$2.s" "$2"
    rm "$flows/$1/$2.s"
}

major=$("$gcc" -dumpversion)
major=${major%%.*}
cd rust/frontend/tests/programs
for source in */*; do
    # gcc knows masked from version 12 on
    if [ "$major" -lt 12 ] && grep -q 'omp masked' "$source"; then
        echo "frontend: $source was not compiled: $gcc $major knows no masked"
        continue
    fi
    compile O0 "$source"
    compile O2 "$source"
done
cd ../../..

# Two sources of one base name in one command that links: a flow each.
linked=$(mktemp -d)
mkdir "$linked/a" "$linked/b"
echo 'int main(void) { return 0; }' >"$linked/a/x.c"
echo 'void other(void) {}' >"$linked/b/x.c"
(cd "$linked" && BOHRALI_GCC=$gcc "$wrappers/bohrali-gcc" -fopenmp a/x.c b/x.c -o p)
grep -qx 'unit a/x.c' "$linked/p-a#x.c.flow"
grep -qx 'unit b/x.c' "$linked/p-b#x.c.flow"
rm -r "$linked"

BOHRALI_FLOWS=$flows cargo test --offline --locked --quiet -p frontend --test answers
echo "frontend: $(find "$flows" -name '*.flow' | wc -l) flows of $gcc $("$gcc" -dumpfullversion) give the answers that are expected"
