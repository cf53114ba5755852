#!/usr/bin/env bash
# evidence.sh [OUT]: do the team rules cover what OpenMP does? Builds real programs with the recorder at -O0 and -O2, runs them with random delays
# on libgomp and, where it is, on LLVM's runtime, and has all that was recorded replayed by the proved rules. OUT (target/evidence) gets the sources
# (tests/sources.sh), a row for each run in runs.tsv, and forbidden.txt with every entry that the rules forbid. docs/EVIDENCE.md tells what came of it.
# JOBS programs are tried at a time; PART=N/M tries the N-th of every M programs alone, CORPORA and RUNTIMES those that they name.
set -euo pipefail
root=$(cd "$(dirname "$0")/.." && pwd)
out=${1:-$root/target/evidence}
mkdir -p "$out"
out=$(cd "$out" && pwd)
bohrali=${BOHRALI:-$root/target/bin/bohrali}
libomp=$(find /usr/lib/llvm-*/lib /usr/lib/x86_64-linux-gnu -name 'libomp.so.5' 2>/dev/null | sort | tail -n 1 || true)
export root out bohrali libomp
# shellcheck source=tests/sources.sh
. "$root/tests/sources.sh"
export -f wrapper_of options_of plant

# one CORPUS LEVEL SOURCE OPTION..: builds a program and records it, twice on each runtime
one() {
    local corpus=$1 level=$2 source=$3 name own more runtime
    shift 3
    name=$corpus.$level.$(basename "$(dirname "$source")")_$(basename "$source")
    export name
    mkdir -p "$out/work/$name"
    cd "$out/work/$name"
    own=$(options_of "$source")
    for more in "$own" ""; do
        # shellcheck disable=SC2086 # the options are several words
        timeout 300 "$root/target/frontend/$(wrapper_of "$source")" --record -fopenmp "-$level" -w $more "$@" -I"$(dirname "$source")" -o program "$source" \
            -lm >/dev/null 2>compile.txt && break
    done
    if [ ! -x program ] || ! "$bohrali" regions ./*.flow -o tables >/dev/null 2>regions.txt; then
        grep -q 'internal compiler error' compile.txt && echo "$name: the compiler failed" >>"$out/failed.txt"
        printf '%s\t%s\t-\t%s\tnot built\n' "$corpus" "$level" "$source" >>"$out/runs.tsv"
    else
        for runtime in ${RUNTIMES:-libgomp libomp}; do
            if [ "$runtime" = libgomp ] || [ -n "$libomp" ]; then run "$runtime"; fi
        done
    fi
    cd "$out"
    rm -rf "$out/work/$name"
}

# ended PRELOAD THREADS: how the program of this directory ends
ended() {
    local status=0
    # shellcheck disable=SC2086 # the arguments are several words
    env OMP_NUM_THREADS="$2" OMP_CANCELLATION=true OMP_WAIT_POLICY=passive OMP_MAX_ACTIVE_LEVELS=3 OMP_DYNAMIC=false LD_PRELOAD="$1" \
        timeout -k 1 20 ./program ${arguments:-} <"${input:-/dev/null}" >/dev/null 2>&1 || status=$?
    case $status in 124 | 137) echo timeout ;; *) echo "status $status" ;; esac
}

# run RUNTIME: the program of this directory with teams of 4 and of 3, traced and replayed
run() {
    local threads preload="" end off
    if [ "$1" = libomp ]; then preload=$libomp; fi
    rm -f log
    off=$(ended "$preload" 4)
    for threads in 4 3; do
        end=$(BOHRALI_LOG=$PWD/log BOHRALI_FIRST=6 BOHRALI_MOST=1000000 BOHRALI_SHAKE=$threads ended "$preload" $threads)
        if [ "$end" != "$off" ]; then echo "$name, $1, $threads threads: ends by $end, and by $off where it is not recorded" >>"$out/ends.txt"; fi
        if [ ! -s log ]; then
            printf '%s\t%s\t%s\t%s\t%s\tno log\n' "$corpus" "$level" "$1" "$source" "$end" >>"$out/runs.tsv"
            return
        fi
        if ! "$bohrali" trace log tables -o traces >traced.txt 2>left.txt || ! "$bohrali" replay traces >replayed.txt 2>>left.txt; then
            { echo "$name, $1, $threads threads"; cat left.txt; } >>"$out/failed.txt"
            end=failed
        fi
        printf '%s\t%s\t%s\t%s\t%s\t%s\n' "$corpus" "$level" "$1" "$source" "$end" "$(counts)" >>"$out/runs.tsv"
        if grep -q ': forbidden:' replayed.txt || ! grep -q 'none is answered never' replayed.txt; then
            { echo "== $name, $1, $threads threads"; grep -A2 ': forbidden:' replayed.txt; grep 'answered never' replayed.txt; } >>"$out/forbidden.txt"
            mkdir -p "$out/kept"
            rm -rf "$out/kept/$name.$1.$threads"
            cp -r traces "$out/kept/$name.$1.$threads"
        fi
        if [ "$1 $level $threads" = "libgomp O2 4" ]; then faults; fi
        if [ "$end" = timeout ]; then return; fi
    done
}

# faults: how many traces are finished with their charts, and no more with a fault in them (tests/faults.awk)
faults() {
    local fault table planted spoiled before
    before=$(grep -c ': forbidden:\|: unfinished:' replayed.txt || true)
    for fault in barrier single loop critical masked edge; do
        rm -rf planted
        cp -r traces planted
        plant $fault planted
        planted=0
        for table in planted/*.csv; do
            cmp -s "$table" "traces/$(basename "$table")" && continue
            planted=$((planted + $(grep -c "^trace: .*, $(basename "$table" .csv)\$" traces/traces.txt || true)))
        done
        spoiled=$({ "$bohrali" replay planted 2>/dev/null || true; } | grep -c ': forbidden:\|: unfinished:' || true)
        printf '%s\t%s\t%s\n' $fault $planted $((spoiled - before)) >>"$out/faults.tsv"
    done
    rm -rf planted
}

# counts: regions, traces, entries, filled in, finished, unfinished, forbidden, cut, pairs, pairs answered never, teams left out
counts() {
    local first
    first=$(head -n 1 traced.txt)
    {
        sed -n 's/.* traces\{0,1\} of \([0-9]*\) region.*/\1/p' <<<"$first"
        sed -n 's/.*: \([0-9]*\) traces\{0,1\} of .*/\1/p' <<<"$first"
        sed -n 's/.*, \([0-9]*\) entr.*/\1/p' <<<"$first"
        sed -n 's/.*, \([0-9]*\) of them filled in.*/\1/p' <<<"$first"
        tail -n 2 replayed.txt | sed -n '1s/.*: \([0-9]*\) finished, \([0-9]*\) unfinished, \([0-9]*\) forbidden; \([0-9]*\) are cut/\1\n\2\n\3\n\4/p'
        tail -n 1 replayed.txt | sed -n 's/.* at \([0-9]*\) pairs\{0,1\} .*/\1/p'
        tail -n 1 replayed.txt | sed -n 's/.*which none is.*/0/p; s/.*which \([0-9]*\) are.*/\1/p'
        { grep '^left out' left.txt || true; } | sed 's/.*, \([0-9]*\) times .*/\1/; /^left/s/.*/1/' | awk '{ n += $1 } END { print n + 0 }'
    } | paste -sd'\t'
}
export -f one run ended counts faults

part() { # part: of rows, the N-th of every M that PART names
    awk -v part="${PART:-1/1}" -v RS='\0' -v ORS='\0' '{ split(part, p, "/") } NR % p[2] == p[1] % p[2]'
}

corpus() { # corpus NAME DIR OPTION..; one whose sources could not be had is left out
    local name=$1 dir=$2 level
    shift 2
    test -d "$dir" || return 0
    for level in O0 O2; do
        echo "$name, -$level: $(sources_below "$dir" | part | tr -dc '\0' | wc -c) sources, after $((SECONDS - begun)) s"
        sources_below "$dir" | part | xargs -0 -r -P "${JOBS:-$(nproc)}" -I{} bash -c 'one "$@" 2>/dev/null' one "$name" "$level" {} "$@"
    done
}

begun=$SECONDS
ls -d "$out"/sources/{fasttree,gcc,llvm} >/dev/null 2>&1 || fetch "$out/sources"
rm -rf "$out"/{runs.tsv,faults.tsv,ends.txt,forbidden.txt,failed.txt,work,kept}
mkdir -p "$out/own"
touch "$out/runs.tsv" "$out/faults.tsv"
cp "$root"/rust/frontend/tests/programs/{stress,narrow}/* "$root/examples/playtest/playtest.c" "$out/own"
awk 'BEGIN { srand(1); for (s = 0; s < 40; s++) { printf ">s%d\n", s; for (i = 0; i < 120; i++) printf "%s", substr("ACGT", 1 + int(rand() * 4), 1); print "" } }' >"$out/alignment.fa"
for name in ${CORPORA:-own fasttree llvm libgomp}; do
    case $name in
    own) corpus own "$out/own" ;;
    fasttree) arguments="-nt -fastest" input="$out/alignment.fa" corpus fasttree "$out/sources/fasttree" -DOPENMP ;;
    llvm) corpus llvm "$out/sources/llvm/openmp/runtime/test" -I"$out/sources/llvm/openmp/runtime/test" ;;
    libgomp)
        for part in c c-c++-common c++ fortran; do corpus libgomp "$out/sources/gcc/libgomp/testsuite/libgomp.$part"; done
        ;;
    esac
done

# a row for each corpus, level and runtime
awk -F'\t' '
$5 == "not built" || $4 == "not built" { next }
{ key = $1 "\t" $2 "\t" $3; keys[key]; programs[key, $4] = 1; end[key, $5]++
  for (i = 6; i <= 16; i++) if ($6 != "no log") sum[key, i] += $i
  if ($6 != "no log" && $7 > 0 && !((key, $4) in seen)) { seen[key, $4]; n[key]++ } }
END { print "corpus\tlevel\truntime\tprograms\tregions\ttraces\tentries\tfilled in\tfinished\tunfinished\tforbidden\tcut\tpairs\tnever\tleft out\ttimeouts"
  for (key in keys) { row = key "\t" n[key] + 0; for (i = 6; i <= 16; i++) row = row "\t" sum[key, i] + 0; print row "\t" end[key, "timeout"] + 0 } }' "$out/runs.tsv" |
    sort | column -t -s "$(printf '\t')"
echo "faults put into charts, instances of these, and how many do not finish any more:"
awk -F'\t' '{ n[$1] += $2; spoiled[$1] += $3 } END { for (x in n) print x, n[x], spoiled[x] }' "$out/faults.tsv" | sort
echo "not built: $(grep -c 'not built' "$out/runs.tsv" || true) of $(cut -f2,4 "$out/runs.tsv" | sort -u | wc -l) programs, a source at a level each; $((SECONDS - begun)) s"
for told in ends failed; do
    test ! -f "$out/$told.txt" || { echo "$told:"; cat "$out/$told.txt"; }
done
