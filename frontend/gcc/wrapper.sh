#!/bin/sh
# bohrali-gcc, bohrali-g++ and bohrali-gfortran: the compiler with the plugin that writes the control flow of each unit beside its object,
# and leaves out locks.
# BOHRALI_GCC, BOHRALI_GXX and BOHRALI_GFORTRAN name another compiler than gcc, g++ and gfortran.
name=${0##*/}
case $name in
*gfortran) compiler=${BOHRALI_GFORTRAN:-gfortran} ;;
*g++) compiler=${BOHRALI_GXX:-g++} ;;
*) compiler=${BOHRALI_GCC:-gcc} ;;
esac
here=${0%/*}
case ${compiler##*/} in
bohrali-*) echo "$name: BOHRALI_GCC, BOHRALI_GXX or BOHRALI_GFORTRAN names $compiler, which is no compiler" >&2; exit 2 ;;
esac

# --record: the program can be recorded. Its objects call the recorder, and each program is linked with it; a shared object has that of
# the program which it is loaded into.
record= shared=
for word do
    shift
    case $word in
    --record) record=yes && continue ;;
    -shared | -r) shared=yes ;;
    -static | -static-pie) static=yes ;;
    esac
    set -- "$@" "$word"
done
if [ -n "$record" ]; then
    if [ -n "${static:-}" ]; then
        echo "$name: --record is for programs that are linked dynamically, without -static" >&2
        exit 1
    fi
    export BOHRALI_RECORD=yes
else
    unset BOHRALI_RECORD
fi

# --drop FILE: without the locks that the decisions of FILE leave out. --outside PATH: an object or a library of the link that is not
# theirs, and is vouched for. BOHRALI_DROP and BOHRALI_OUTSIDE say the same to all commands of a build.
left=$#
while [ "$left" -gt 0 ]; do
    case $1 in
    --drop | --outside)
        [ "$left" -gt 1 ] || { echo "$name: $1 wants a file behind it" >&2; exit 2; }
        set -- "$1=$2" "$@"
        set_aside=$1
        shift 3
        left=$((left - 2))
        ;;
    *)
        set_aside=$1
        shift
        left=$((left - 1))
        ;;
    esac
    case $set_aside in
    --drop=*) BOHRALI_DROP=${set_aside#*=} ;;
    --outside=*) BOHRALI_OUTSIDE=${BOHRALI_OUTSIDE:+$BOHRALI_OUTSIDE:}${set_aside#*=} ;;
    *) set -- "$@" "$set_aside" ;;
    esac
done
if [ -n "${BOHRALI_DROP:-}" ]; then
    export BOHRALI_DROP
    [ -z "${BOHRALI_OUTSIDE:-}" ] || export BOHRALI_OUTSIDE
    set -- -wrapper "$here/bohrali-link" "$@"
else
    unset BOHRALI_DROP
fi

version=$("$compiler" -dumpversion) || exit
for directory in "$here" "$here/../lib/bohrali"; do
    plugin=$directory/flow-$version.so
    if [ -f "$plugin" ]; then
        if [ -n "$record" ] && [ -z "$shared" ]; then
            set -- "$@" "-L$directory" -lbohrali-record -lgomp -ldl -lpthread
            # the recorder has no critical, and belongs to no program's decisions
            export BOHRALI_OUTSIDE="${BOHRALI_OUTSIDE:+$BOHRALI_OUTSIDE:}$directory/libbohrali-record.a"
        fi
        exec "$compiler" "-fplugin=$plugin" "$@"
    fi
done
echo "$name: there is no plugin for $compiler $version; make frontend GCC=$compiler builds it" >&2
exit 1
