#!/usr/bin/env bash
# Compiles the stress and narrow programs with the recorder, where the plugin headers are, and holds them to what must be so: the flow is that of a
# plain build byte for byte; every recorded run is one by the team rules, but for the program that breaks OpenMP, whose breach is found; faults put
# into charts are found; and what a program leaves that exits early, forks or is killed is the beginning of a run. BOHRALI names the command.
set -euo pipefail
cd "$(dirname "$0")/.."
root=$PWD
bohrali=${BOHRALI:-$root/target/bin/bohrali}
if ! make --silent -C frontend/gcc headers; then
    echo "record: the plugin was not built, and nothing was recorded"
    exit 0
fi
make --silent -C frontend/gcc
# shellcheck source=tests/sources.sh
. tests/sources.sh
work=$(mktemp -d)
trap 'rm -rf "$work"' EXIT
cd "$work"

fail() {
    echo "record: $*"
    exit 1
}

build() { # build NAME LEVEL SOURCE: the program, its tables, and whether its flow is that of a plain build
    local wrapper
    wrapper=$root/target/frontend/$(wrapper_of "$3")
    mkdir -p "$1"
    "$wrapper" -fopenmp "-$2" -w -c -o "$1/plain.o" "$3"
    "$wrapper" --record -fopenmp "-$2" -w -c -o "$1/recorded.o" "$3"
    cmp "$1/plain.flow" "$1/recorded.flow" || fail "the flow of $3 changes where it is recorded"
    "$wrapper" --record -fopenmp "-$2" -w -o "$1/program" "$1/recorded.o"
    "$bohrali" regions "$1/recorded.flow" -o "$1/tables" >/dev/null
}

record() { # record NAME: runs it and makes traces
    OMP_NUM_THREADS=4 OMP_CANCELLATION=true OMP_WAIT_POLICY=passive OMP_MAX_ACTIVE_LEVELS=3 BOHRALI_LOG=$1/log BOHRALI_FIRST=4 BOHRALI_SHAKE=1 \
        timeout 60 "$1/program" >/dev/null
    "$bohrali" trace "$1/log" "$1/tables" -o "$1/traces" >/dev/null
}

spoiled() { # spoiled NAME FAULT: how many traces do not finish any more with the fault in the tables
    rm -rf planted
    cp -r "$1/traces" planted
    plant "$2" planted
    "$bohrali" replay planted | grep -c ': forbidden:\|: unfinished:' || true
}

runs=0
programs=$root/rust/frontend/tests/programs
for source in "$programs"/stress/s* "$programs"/narrow/*; do
    case $source in *.f90) command -v gfortran >/dev/null || continue ;; esac
    name=$(basename "$source")
    build "$name" O2 "$source"
    record "$name"
    "$bohrali" replay "$name/traces" --strict >"$name/replayed.txt" || { cat "$name/replayed.txt"; fail "$name: a recorded run is none by the rules"; }
    runs=$((runs + $(grep -c '^trace' "$name/traces/traces.txt")))
done

# threads at two barriers, which the runtime lets through
build m1.c O0 "$programs/stress/m1.c"
record m1.c
"$bohrali" replay m1.c/traces | grep -q 'a barrier opens once all threads are at it' || fail "the breach of m1.c is not found"

for fault in barrier single loop critical masked edge; do
    found=0
    for name in s1.c n3.c; do found=$((found + $(spoiled "$name" "$fault"))); done
    test "$found" -gt 0 || fail "a fault put into the charts ($fault) spoils no recorded run"
done

# ends before its time: what was written is the beginning of a run
cat >early.c <<'SOURCE'
#include <signal.h>
#include <stdlib.h>
#include <string.h>
#include <sys/wait.h>
#include <unistd.h>
#include <omp.h>
int main(int count, char **words)
{
    const char *end = count > 1 ? words[1] : "";
    int total = 0;
    #pragma omp parallel num_threads(4)
    for (int round = 0; round < 200; round++) {
        #pragma omp single
        total++;
        #pragma omp for schedule(dynamic) reduction(+ : total)
        for (int i = 0; i < 20; i++)
            total += i;
        #pragma omp masked
        {
            if (round == 20 && strcmp(end, "exit") == 0)
                exit(0);
            if (round == 20 && strcmp(end, "kill") == 0)
                kill(getpid(), SIGKILL);
            if (round == 20 && strcmp(end, "fork") == 0) {
                int child = fork();
                if (child == 0)
                    exit(0);
                waitpid(child, NULL, 0);
            }
        }
    }
    return 0;
}
SOURCE
build early O2 early.c
for end in "" exit kill fork; do
    rm -f early/log
    { BOHRALI_LOG=early/log early/program $end || true; } 2>/dev/null
    "$bohrali" trace early/log early/tables -o early/traces >early/traced.txt 2>&1 || { cat early/traced.txt; fail "the log of a program that ends by '$end' is refused"; }
    "$bohrali" replay early/traces >early/replayed.txt
    case $end in
    exit | kill) grep -q ' 1 unfinished, 0 forbidden; 1 are cut' early/replayed.txt ;;
    *) grep -q ' 1 finished, 0 unfinished, 0 forbidden; 0 are cut' early/replayed.txt ;;
    esac || { cat early/replayed.txt; fail "what a program leaves that ends by '$end' is no beginning of a run"; }
done
# one of these cut off, one of another program, and none where it cannot be written
says() { # says TEXT COMMAND..
    local text=$1
    shift
    "$@" >said.txt 2>&1 || true
    grep -q "$text" said.txt || { cat said.txt; fail "'$text' is not said"; }
}
head -c 1000 early/log >cut.log
says 'the log is cut off' "$bohrali" trace cut.log early/tables -o early/traces
says 'another program' "$bohrali" trace s1.c/log early/tables -o early/traces
says 'nothing is recorded' env BOHRALI_LOG=no/such/folder/log early/program
says 'nothing is recorded' env BOHRALI_LOG=early/log BOHRALI_FIRST=many early/program
echo "record: $runs recorded runs are runs by the rules; m1.c is none, and the faults in charts are found"
