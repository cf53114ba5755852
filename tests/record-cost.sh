#!/usr/bin/env bash
# record-cost.sh [TURNS [TEAM..]]: what the recorder costs examples/playtest, as ratios of processor time and of elapsed time to the program without it,
# medians of so many turns of all in one run. Again: the program without the recorder once more, by which one sees how far two runs of one program
# differ. Off: built with --record and BOHRALI_LOG not set. On: all instances of its regions are recorded, without delays, in nine turns at most.
#
# TEAM is one or four, both where none is named. In teams of one, with 200,000 rounds, nothing waits: the tests of the flag weigh most, and times
# repeat. In teams of four, as it is written, with 2,000 rounds, nearly all of its time is waiting and being woken, which differs from run to run by
# more than such tests can cost. Where valgrind is, the instructions of both are counted, too. Nine turns are too few to tell 2 %; without words there
# are 41, which take some four minutes.
set -euo pipefail
cd "$(dirname "$0")/.."

refuse() { # refuse WORDS..
    echo "record-cost.sh: $*" >&2
    exit 2
}

turns=${1:-41}
shift $(($# > 0))
if [ $# -eq 0 ]; then set -- one four; fi
[[ $turns =~ ^[1-9][0-9]{0,3}$ ]] || refuse "turns are a number from 1 to 9999, and not '$turns'"
for team in "$@"; do
    [[ $team =~ ^(one|four)$ ]] || refuse "a team is one or four, and not '$team'"
done

make --silent -C frontend/gcc
work=$(mktemp -d)
trap 'rm -rf "$work"' EXIT
wrapper=$PWD/target/frontend/bohrali-gcc
source=$PWD/examples/playtest/playtest.c
cd "$work"
export OMP_WAIT_POLICY=passive
TIMEFORMAT='%U %S %R'

build() { # build ROUNDS: ./plain and ./recorded
    sed "s/ROUNDS = 20,/ROUNDS = $1,/" "$source" >playtest.c
    gcc -O2 -fopenmp -o plain playtest.c
    "$wrapper" --record -O2 -fopenmp -o recorded playtest.c
}

timed() { # timed NAME COMMAND..
    local name=$1
    shift
    { time "$@" >/dev/null; } 2>&1 | awk '{ print $1 + $2, $3 }' >>"$name.times"
}

median() { # median NAME COLUMN
    cut -d' ' -f"$2" "$1.times" | sort -g | awk '{ x[NR] = $1 } END { print x[int((NR + 1) / 2)] }'
}

ratio() { # ratio NAME COLUMN: to the plain one, with its seconds
    awk -v a="$(median "$1" "$2")" -v b="$(median plain "$2")" 'BEGIN { printf "%.3f of %.2f s", a / b, b }'
}

instructions() { # instructions PROGRAM
    valgrind --tool=callgrind --callgrind-out-file=/dev/null "$1" 2>&1 >/dev/null | sed -n 's/.*Collected : //p'
}

measure() { # measure TEAM NAME..: ./plain, ./recorded and ./plain by turns, each first in every third; then ./recorded with a log, for `on`
    local team=$1 name order=(plain off again)
    shift
    rm -f ./*.times
    for turn in $(seq "$turns"); do
        for place in 0 1 2; do
            name=${order[(turn + place) % 3]}
            case $name in
            off) timed off ./recorded ;;
            *) timed "$name" ./plain ;;
            esac
        done
    done
    case " $* " in *" on "*)
        for turn in $(seq $((turns < 9 ? turns : 9))); do
            timed on env BOHRALI_LOG=log BOHRALI_FIRST=1000000 BOHRALI_MOST=20000000 ./recorded
        done
        ;;
    esac
    for name in "$@"; do
        echo "teams of $team, $name: processor time $(ratio "$name" 1), elapsed $(ratio "$name" 2)"
    done
    build 2000
    if command -v valgrind >/dev/null; then
        echo "teams of $team, 2,000 rounds: $(instructions ./plain) instructions, off $(instructions ./recorded)"
    else
        echo "valgrind is not there: instructions are not counted"
    fi
}

for team in "$@"; do
    case $team in
    one)
        build 200000
        OMP_THREAD_LIMIT=1 measure one again off
        ;;
    four)
        build 2000
        measure four again off on
        echo "the log has $((($(stat -c %s log) - 64) / 24)) entries"
        ;;
    esac
done
