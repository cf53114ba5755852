# Read by survey.sh, record.sh and evidence.sh: how a test's source is compiled, where the sources come from, and faults in tables. They set root, and
# bohrali for the command.

# wrapper_of SOURCE: the compiler for it
wrapper_of() {
    case $1 in
    *.c) echo bohrali-gcc ;;
    *.C | *.cc | *.cpp) echo bohrali-g++ ;;
    *) echo bohrali-gfortran ;;
    esac
}

# options_of SOURCE: those that it names for DejaGnu
options_of() {
    sed -n 's/.*dg-\(additional-\)\?options "\([^"]*\)".*/\2/p' "$1" | tr '\n' ' ' | sed 's/-fdump[^ ]*//g; s/-foffload[^ ]*//g'
}

# sources_below DIR: names of all C, C++ and Fortran sources, each ended by a byte of 0
sources_below() {
    find "$1" -type f \( -name '*.c' -o -name '*.C' -o -name '*.cc' -o -name '*.cpp' -o -iname '*.f90' -o -iname '*.f' \) -print0 | sort -z
}

# plant FAULT DIR: puts a fault into each table of a directory, at the first place where the table stays one
plant() {
    local table nth
    for table in "$2"/*.csv; do
        for nth in 1 2 3 4 5 6 7 8; do
            awk -v fault="$1" -v nth=$nth -f "$root/tests/faults.awk" "$table" >"$2/new" || break
            if "$bohrali" check "$2/new" >/dev/null 2>&1; then
                mv "$2/new" "$table"
                break
            fi
        done
    done
    rm -f "$2/new"
}

# fetch DIR: sources of gcc's and LLVM's OpenMP tests and of FastTree, as the system's archive has them, by apt-get source, a folder each. It says which
# of them cannot be had.
fetch() {
    mkdir -p "$1/apt/parts" "$1/apt/lists"
    (
        cd "$1"
        # the archives that packages come from, asked for sources
        for list in /etc/apt/sources.list /etc/apt/sources.list.d/*.list /etc/apt/sources.list.d/*.sources; do
            test ! -f "$list" || sed 's/^Types:.*/Types: deb-src/; s/^deb /deb-src /' "$list" >"apt/parts/$(basename "$list")"
        done
        printf '%s "%s";\n' Dir::Etc::sourcelist /dev/null Dir::Etc::sourceparts "$PWD/apt/parts" Dir::State::lists "$PWD/apt/lists" >apt/conf
        export APT_CONFIG=$PWD/apt/conf
        apt-get update >apt/log 2>&1 || true
        unpack fasttree fasttree '*'
        unpack gcc-12 gcc '*/libgomp/testsuite/*' '*/gcc-12*.tar.xz'
        unpack llvm-toolchain-14 llvm '*/openmp/runtime/test/*'
    )
}

# unpack PACKAGE FOLDER MEMBERS [ARCHIVE]: fetches a package's sources, unless that was done, and unpacks some, perhaps from an archive inside them
unpack() {
    test ! -d "$2" || return 0
    rm -rf "$2.part"
    mkdir "$2.part"
    if apt-get source --download-only "$1" >>apt/log 2>&1 && tar -xf "$1"_*.orig.tar.* -C "$2.part" --strip-components=1 --wildcards "${4:-$3}" &&
        { [ $# = 3 ] || tar -xf "$2.part"/*.tar.xz -C "$2.part" --strip-components=1 --wildcards "$3"; }; then
        mv "$2.part" "$2"
    else
        echo "the sources of $1 cannot be had ($PWD/apt/log): its programs are left out"
    fi
}
