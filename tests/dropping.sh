#!/usr/bin/env bash
# Builds programs with all locks and without those that can go, and compares: objects, outputs, races. Then tries each way to have a lock
# left out that should not be. GCC, GXX and GFORTRAN name the compilers; BOHRALI the command. Needs the plugin's headers.
set -euo pipefail
cd "$(dirname "$0")/.."

gcc=${GCC:-gcc} gxx=${GXX:-g++} gfortran=${GFORTRAN:-gfortran}
if ! make --silent -C frontend/gcc GCC="$gcc" headers; then
    echo "dropping: the plugin was not built: no lock was left out, and nothing of it is tested"
    exit 0
fi
make --silent -C frontend/gcc GCC="$gcc"
root=$PWD wrappers=$PWD/target/frontend
bohrali=${BOHRALI:-$PWD/target/bin/bohrali}
export BOHRALI_GCC=$gcc BOHRALI_GXX=$gxx BOHRALI_GFORTRAN=$gfortran
unset BOHRALI_DROP BOHRALI_OUTSIDE
work=$(mktemp -d)
trap 'rm -rf "$work"' EXIT
"$gxx" -O1 -o "$work/seal" tests/dropping/seal.cc frontend/gcc/decisions.cc
cp -r tests/dropping/programs "$work/programs"
cd "$work"

vouched="--assume conforming --assume one-host-thread --assume whole-program --assume unknown-routines"
export OMP_CANCELLATION=true LC_ALL=C

fail() {
    echo "dropping: $*" >&2
    exit 1
}

# wrapper SOURCE, compiler SOURCE: the one for its language
wrapper() {
    case $1 in
    *.f90) echo "$wrappers/bohrali-gfortran" ;;
    *.c | *.o) echo "$wrappers/bohrali-gcc" ;;
    *) echo "$wrappers/bohrali-g++" ;;
    esac
}
compiler() {
    case $1 in
    *.f90) echo "$gfortran" ;;
    *.c) echo "$gcc" ;;
    *) echo "$gxx" ;;
    esac
}

# gcc knows masked from version 12 on
major=$("$gcc" -dumpversion)
major=${major%%.*}
# compiles SOURCE: whether there is a compiler that does
compiles() {
    if ! command -v "$(compiler "$1")" >/dev/null || { [ "$major" -lt 12 ] && grep -q 'omp masked' "$1"; }; then
        echo "dropping: $1 is left out: $(compiler "$1") is not there, or knows no masked"
        return 1
    fi
}

# decide NAME OPTION..: the decisions NAME.decided about the flows NAME/*.flow
decide() {
    local name=$1
    shift
    "$bohrali" regions "$name"/*.flow -o "$name/tables" >"$name/said" 2>&1 || fail "regions of $name: $(cat "$name/said")"
    "$bohrali" locks "$name/tables" --decide "$name.decided" $vouched "$@" >"$name/said" 2>&1 || fail "locks of $name: $(cat "$name/said")"
}

# says TEXT COMMAND..: the command ends well, and its messages have this text; refuses: it does not, and they have
says() {
    local text=$1
    shift
    "$@" >said 2>&1 || fail "'$*' ends with $?: $(cat said)"
    grep -q -- "$text" said || fail "'$*' does not say '$text': $(cat said)"
}
refuses() {
    local text=$1
    shift
    if "$@" >said 2>&1; then fail "'$*' is not refused: $(cat said)"; fi
    grep -q -- "$text" said || fail "'$*' does not say '$text': $(cat said)"
}

# plain SOURCE OBJECT OPTION..: the object is what gcc makes without the plugin. With code for other devices gcc keeps its command line in the
# object, where the plugin's name is.
plain() {
    local source=$1 object=$2
    shift 2
    "$(compiler "$source")" -fopenmp -w -frandom-seed=1 "$@" -c "$source" -o plain.o
    cp "$object" whole.o
    objcopy -R '.gnu.offload_lto_*' plain.o
    objcopy -R '.gnu.offload_lto_*' whole.o
    cmp plain.o whole.o || fail "$object is not what gcc makes of $source by itself"
}

# calls WORD OBJECT: how many calls of GOMP_critical_.._WORD there are
calls() {
    objdump -r "$2" | grep -c "GOMP_critical_.*$1" || true
}

runs=0
# recorded SOURCE LEVEL NAME: what the build without locks does is by the rules, which let no two threads into criticals of one name
recorded() {
    local source=$1 level=$2 name=$3
    case $source in */m1.c) return ;; esac # breaks OpenMP, and is found by tests/record.sh
    "$(wrapper "$source")" --record --drop "$name.decided" -fopenmp -w "-$level" -c "$source" -o "$name/c.o" 2>/dev/null
    "$(wrapper "$source")" --record --drop "$name.decided" -fopenmp "$name/c.o" -o "$name/recorded"
    OMP_WAIT_POLICY=passive OMP_MAX_ACTIVE_LEVELS=3 BOHRALI_LOG=$name/log BOHRALI_FIRST=2 BOHRALI_SHAKE=1 timeout 60 "$name/recorded" 4 >/dev/null ||
        fail "$source -$level, recorded without locks, ends with $?"
    "$bohrali" trace "$name/log" "$name/tables" -o "$name/traces" >"$name/said" 2>&1 || fail "the log of $source -$level: $(cat "$name/said")"
    "$bohrali" replay "$name/traces" --strict >"$name/said" 2>&1 || fail "$source -$level: without locks a run is none by the rules: $(cat "$name/said")"
    runs=$((runs + $(grep -c '^trace' "$name/traces/traces.txt")))
}

dropped=0
# both SOURCE LEVEL: builds it with all locks and without; what the program prints for teams of 1 to 16 must be alike
both() {
    local source=$1 level=$2 name
    name=$(basename "$source").$2
    mkdir -p "$name"
    "$(wrapper "$source")" -fopenmp -w -frandom-seed=1 "-$level" -c "$source" -o "$name/a.o"
    plain "$source" "$name/a.o" "-$level"
    decide "$name"
    "$(wrapper "$source")" --drop "$name.decided" -fopenmp -w "-$level" -c "$source" -o "$name/b.o" 2>"$name/notes"
    count=$(grep -c 'left out' "$name/notes" || true)
    test "$count" = "$(grep -c '^drop ' "$name.decided" || true)" || fail "$source -$level: $count locks left out: $(cat "$name/notes")"
    dropped=$((dropped + count))
    # Without inlining each lock is one call that takes it and one that gives it back.
    for call in start end; do
        if [ "$level" = O0 ] && [ $(($(calls $call "$name/a.o") - $(calls $call "$name/b.o"))) != "$count" ]; then
            fail "$source: not just $count calls GOMP_critical_.._$call are gone"
        fi
    done
    if ! nm "$name/a.o" | grep -q ' T main$'; then return; fi
    "$(compiler "$source")" -fopenmp "$name/a.o" -o "$name/locked"
    "$(wrapper "$source")" --drop "$name.decided" -fopenmp "$name/b.o" -o "$name/dropped"
    for team in ${3:-}; do
        "$name/locked" "$team" >one.txt
        "$name/dropped" "$team" >other.txt
        cmp one.txt other.txt || fail "$source -$level, a team of $team: $(cat one.txt other.txt)"
    done
    recorded "$source" "$level" "$name"
}

for level in O0 O2; do
    for source in programs/*.*; do
        compiles "$source" || continue
        both "$source" $level "1 2 3 4 5 7 8 11 16"
    done
done
own=$dropped
for source in "$root"/rust/frontend/tests/programs/*/*.*; do
    case $source in */units/*) continue ;; esac
    compiles "$source" || continue
    both "$source" O2 4
done
echo "dropping: $dropped locks left out, $own of them of programs that print the same with and without, in teams of 1 to 16"
echo "dropping: $runs recorded runs without them are runs by the rules"

# By default only what holds in every run goes.
grep -q '^drop ' parted.c.O2.decided && fail "a lock went that can go only in runs that finish"
decide parted.c.O2 --finished
test "$(grep -c '^drop .* runs=finished ' parted.c.O2.decided)" = 2 || fail "--finished: $(cat parted.c.O2.decided)"

# Races, by ThreadSanitizer. libgomp is compiled without it: sanitized.c tells it who waits for whom there.
"$gcc" -fsanitize=thread -O1 -c "$root/tests/dropping/sanitized.c" -o sanitized.o

# sanitized NAME SOURCE: the program with the locks that NAME.decided leaves, as NAME/sanitized
sanitized() {
    "$(wrapper "$2")" --drop "$1.decided" --outside sanitized.o -fopenmp -w -fsanitize=thread -g -O1 "$2" sanitized.o -o "$1/sanitized" \
        2>"$1/notes" || fail "$2: $(cat "$1/notes")"
}
# races PROGRAM: what it finds, a line a race
races() {
    TSAN_OPTIONS=exitcode=0 "$1" 4 2>&1 >/dev/null | sed -n 's/^SUMMARY: //p' | sort -u
}
# The flow of a program under the sanitizer, and the one with all locks.
flowing() {
    mkdir -p "$1"
    "$(wrapper "$2")" -fopenmp -w -fsanitize=thread -g -O1 -c "$2" -o "$1/a.o"
    "$(compiler "$2")" -fopenmp -fsanitize=thread "$1/a.o" sanitized.o -o "$1/locked"
    decide "$1"
}
if ! echo 'int main(void) { return 0; }' | "$gcc" -fsanitize=thread -x c - -o can 2>/dev/null || ! ./can; then
    echo "dropping: ThreadSanitizer does not run here: no races were looked for"
else
    for source in programs/*.*; do
        compiles "$source" || continue
        name=$(basename "$source").races
        flowing "$name" "$source"
        sanitized "$name" "$source"
        new=$(comm -13 <(races "$name/locked") <(races "$name/sanitized"))
        test -z "$new" || fail "$source has races without its locks: $new"
    done
    # A needed lock that is left out on purpose is found.
    name=rules.c.races
    read -r _ _ function number _ place <<<"$(grep ' needed ' $name/tables/units.txt)"
    row=$(grep -m 1 '^drop ' $name.decided | sed "s|^\(drop [^ ]*\) [^ ]* [^ ]* number=[^ ]* name=[^ ]*|\1 $function $place number=$number name=needed|")
    { grep -v ^complete $name.decided; echo "$row"; } | ./seal >wrong.decided
    mkdir -p wrong
    sanitized wrong programs/rules.c
    races wrong/sanitized | grep -q 'data race' || fail "a needed lock was left out, and no race is found"
    echo "dropping: no race without the locks that was not there with them; a needed lock that is left out is found"
fi

# A program of three units: two.. names its objects with all locks, and those as decided.
cp -r programs/units source
units="main hands other"

# unit NAME FOLDER OPTION..: compiles a unit of the program into a folder
unit() {
    local name=$1 folder=$2
    shift 2
    mkdir -p "$folder"
    (cd source && "$wrappers/bohrali-gcc" "$@" -fopenmp -O2 -c "$name.c" -o "../$folder/$name.o")
}
# without FOLDER: all units as decided by FOLDER.decided
without() {
    local name
    for name in $units; do unit "$name" "$1.objects" --drop "../$1.decided" 2>>"$1.notes"; done
}
for name in $units; do unit "$name" two; done
decide two
without two
grep -q "lock of critical 'hands' left out: nodes never meet, rule 3" two.notes || fail "no note: $(cat two.notes)"
link="$wrappers/bohrali-gcc --drop two.decided -fopenmp -o program"
$link two.objects/*.o
"$gcc" -fopenmp two/*.o -o locked
cmp <(./program) <(./locked) || fail "two units without a lock print something else"
tried=0
cheat() {
    tried=$((tried + 1))
}
# changed NAME SED FILE: a unit is compiled from a changed source: its object is gcc's own, with a warning; and the link is refused, or
# warns where no other unit has lost a lock
changed() {
    cheat
    cp -r source kept
    sed -i "$2" "source/$3"
    rm -rf stale && cp -r two.objects stale
    says 'all locks stay' unit "$1" stale --drop ../two.decided -frandom-seed=1
    (cd source && "$gcc" -frandom-seed=1 -fopenmp -O2 -c "$1.c" -o ../plain.o)
    cmp plain.o "stale/$1.o" || fail "$1 of a changed source is not what gcc makes of it"
    rm -rf source && mv kept source
    if [ "$1" = hands ]; then
        says "warning: stale/$1.o is not as decided" $link stale/*.o
        return
    fi
    refuses "stale/$1.o is not as decided" $link stale/*.o
    test ! -e program || fail "a program that is refused was written"
}
changed hands '1i\\n' hands.c
changed hands 's/^#define STEP.*/#define STEP(hand) (hands ? hands * 31 + (hand) : (hand))/' hands.h
changed main '1i #define MORE' main.c
changed other 's/^    rounds++/    _Pragma("omp critical(hands)") rounds++/' other.c

# Objects and links that no decision is about.
cheat
refuses bohrali_link_with_drop "$gcc" -fopenmp two.objects/*.o -o program
cheat
"$wrappers/bohrali-gcc" --drop two.decided -r two.objects/*.o -o partial.o
refuses bohrali_link_with_drop "$gcc" -fopenmp partial.o -o program
$link partial.o
cheat
refuses 'is not as decided' $link two.objects/{main,hands}.o two/other.o
cheat
rm -f stale.a && ar rc stale.a two.objects/hands.o two/other.o
refuses 'stale.a, member 2 is not as decided' $link two.objects/main.o stale.a
rm -f good.a && ar rc good.a two.objects/{hands,other}.o
$link two.objects/main.o good.a
cheat
printf 'void more(void)\n{\n_Pragma("omp critical(hands)") { extern unsigned hands; hands++; }\n}\n' >more.c
"$gcc" -fopenmp -fPIC -c more.c -o more.o
refuses "has a critical 'hands'" $link --outside more.o two.objects/*.o more.o
cheat
"$gcc" -shared more.o -o libmore.so
refuses "libmore.so is not as decided" $link two.objects/*.o ./libmore.so
refuses "libmore.so has a critical 'hands'" $link --outside libmore.so two.objects/*.o ./libmore.so
printf 'int nothing;\n' >nothing.c
"$gcc" -c nothing.c -o nothing.o
$link --outside nothing.o two.objects/*.o nothing.o
# Later decisions, and an object that lost its lock by the earlier ones.
cheat
sed -i 's/rounds++/rounds += 2;\n/' source/other.c
for name in $units; do unit "$name" later; done
decide later
without later
refuses bohrali_link_with_drop "$wrappers/bohrali-gcc" --drop later.decided -fopenmp later.objects/{main,other}.o two.objects/hands.o -o program
"$wrappers/bohrali-gcc" --drop later.decided -fopenmp later.objects/*.o -o program

# Decisions that cannot be trusted: the object is gcc's own.
# kept TEXT FILE: with a warning that says so
kept() {
    cheat
    says "all locks stay, .*$1" unit hands kept --drop "$2" -frandom-seed=1
    (cd source && "$gcc" -frandom-seed=1 -fopenmp -O2 -c hands.c -o ../plain.o)
    cmp plain.o kept/hands.o || fail "with decisions that are not used the object is not gcc's own"
}
hash=$(sed -n 's/^drop .* flow=\([^ ]*\) .*/\1/p' two.decided)
body() { grep -v ^complete two.decided; }
kept 'cannot be read' ../nowhere
kept 'cannot be read\|does not begin' ../two
kept 'not as decided' ../rules.c.O2.decided
sed 's/^bohrali-decisions 1/bohrali-decisions 2/' two.decided >bad.decided
kept "does not begin with" ../bad.decided
head -c -20 two.decided >bad.decided
kept 'cut off\|changed after' ../bad.decided
body >bad.decided
kept 'cut off' ../bad.decided
sed "s/$hash/0123456789abcdef/" two.decided >bad.decided
kept 'changed after it was written' ../bad.decided
body | sed "s/$hash/0123456789abcdef/" | ./seal >bad.decided
kept 'not as decided' ../bad.decided
body | sed 's/number=[0-9]*/number=77/' | ./seal >bad.decided
kept 'no critical' ../bad.decided
body | sed 's/name=hands/name=other/' | ./seal >bad.decided
kept 'no critical' ../bad.decided
body | sed 's/^drop .*/drop it/' | ./seal >bad.decided
kept 'without its' ../bad.decided
{ body; echo 'lose all'; } | ./seal >bad.decided
kept 'no row' ../bad.decided
cheat
says 'with -flto' unit hands kept --drop ../two.decided -flto

# Flows and tables that were changed by hand, and conditions that nobody vouches for.
cheat
sed 's/^dir 0 critical/dir 0 single/' two/hands.flow >two/hands.edited
refuses 'changed after it was written' "$bohrali" regions two/hands.edited two/main.flow -o edited
cheat
sed -i 's/,critical hands,/,critical hand,/' two/tables/main-8.csv
refuses 'changed after they were written' "$bohrali" locks two/tables --decide bad.decided $vouched
cheat
rm -f undecided
refuses '--assume whole-program' "$bohrali" locks later/tables --decide undecided --assume conforming,one-host-thread
test ! -e undecided || fail "decisions were written that nobody vouches for"
test $tried = 27 || fail "$tried ways were tried"
echo "dropping: $tried ways to have a lock left out wrongly are refused"

# The example, as its user builds it.
compiles "$root/examples/playtest/playtest.c" || exit 0
says 'the same for 100 plays' make -C "$root/examples/playtest" BOHRALI="$bohrali" FLOW_GCC="$wrappers/bohrali-gcc" CC="$gcc" \
    BUILD="$work/playtest" PLAYS=100 TEAMS="1 2 3 8 16" drop
