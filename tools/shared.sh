# What every script shares; it is sourced, from the tree's root. Sets
#   cc, cxx    the compilers for x86-64
#   strict     their warning flags
#   run        what runs an x86-64 program on this machine; empty where the machine does it by itself
#   emulator   the files that run needs
#   archive    the library for C
# and has `need`, which sees to packages, `built`, which has the toolchain bring a program up to date, `built_archive`, which does so for the archive,
# `program`, which says where a program is, and `block`, which takes an example out of a page.

me=$0
strict="-Wall -Wextra -Wpedantic -Werror"
archive=target/staticlib/libvelbus.a
if [ "$(uname -m)" = x86_64 ]; then
    cc=gcc
    cxx=g++
    run=()
    emulator=()
else
    cc=x86_64-linux-gnu-gcc
    cxx=x86_64-linux-gnu-g++
    run=(qemu-x86_64 -L /usr/x86_64-linux-gnu)
    emulator=(qemu-x86_64 /usr/x86_64-linux-gnu/lib64/ld-linux-x86-64.so.2)
fi

# packages_of FILE: the Debian packages that bring a tool; most have the tool's own name.
packages_of() {
    case $1 in
    gcc) echo gcc libc6-dev ;;
    x86_64-linux-gnu-gcc) echo gcc-x86-64-linux-gnu libc6-dev-amd64-cross ;;
    x86_64-linux-gnu-g++) echo g++-x86-64-linux-gnu ;;
    qemu-x86_64) echo qemu-user ;;
    */ld-linux-x86-64.so.2) echo libc6-amd64-cross ;;
    *) echo "$1" ;;
    esac
}

# need FILE...: sees that the tools are there. Root has what is missing installed; whoever else runs the script is told what to install.
need() {
    local file missing=()
    for file; do
        command -v "$file" > /dev/null || missing+=($(packages_of "$file"))
    done
    [ ${#missing[@]} -gt 0 ] || return 0
    if [ "$(id -u)" != 0 ] || ! command -v apt-get > /dev/null; then
        echo "$me: not installed, and needed here (Debian's names): ${missing[*]}" >&2
        exit 1
    fi
    echo "$me: installing ${missing[*]}" >&2
    if ! { apt-get update -qq && DEBIAN_FRONTEND=noninteractive apt-get install -y -qq "${missing[@]}"; } > /dev/null; then
        echo "$me: could not install ${missing[*]}" >&2
        exit 1
    fi
}

# program CRATE: where the toolchain leaves a program.
program() { echo "crates/$1/out/$1"; }

# built CRATE...: brings programs up to date. `rt run` proves and builds one where it has changed, and runs it, here with no input.
built() {
    local crate
    for crate; do
        fresh "$(program "$crate")" "$crate" run
    done
}

# built_archive: brings the archive up to date.
built_archive() {
    fresh crates/velbus_c/out/libvelbus_c.a velbus_c lib
    mkdir -p "${archive%/*}"
    cp crates/velbus_c/out/libvelbus_c.a "$archive"
}

# fresh FILE CRATE WORD: brings a crate's file up to date by `rt WORD`. rt decides what has changed; if it is at work for some seconds, one line says
# so. Where there is no rt, a file that was built stays in use, and that is told. So does a program after the gate, without a word: where
# gate_passed is set, `rt ci` has just proved and built every program.
fresh() {
    local file=$1 crate=$2 word=$3 said status=0 notice
    if ! command -v rt > /dev/null; then
        [ -e "$file" ] || { echo "$me: rt, the Rattle toolchain, is not on the path, and $file is not built" >&2; exit 1; }
        echo "$me: rt, the Rattle toolchain, is not on the path: $file is used as it was built" >&2
        return
    fi
    if [ -n "${gate_passed:-}" ] && [ "$word" = run ] && [ -e "$file" ]; then
        return
    fi
    (sleep 3 > /dev/null 2>&1 && echo "$me: rt $word proves and builds what has changed of $crate; from nothing it takes some minutes" >&2) &
    notice=$!
    disown
    said=$(cd "crates/$crate" && rt "$word" < /dev/null 2>&1) || status=$?
    kill "$notice" 2> /dev/null || :
    if [ "$status" -eq 0 ] && [ ! -e "$file" ]; then
        echo "$me: rt has nothing to prove, yet $file is gone: remove crates/$crate/out, and begin again" >&2
        exit 1
    elif [ "$status" -ne 0 ]; then
        printf '%s\n' "$said" >&2
        exit "$status"
    fi
}

# block WORD FILE: the text of the file's block that begins with ```WORD
block() { awk -v begin='```'"$1" '$0 == "```" { in_block = 0 } in_block; $0 == begin { in_block = 1 }' "$2"; }
