# Sourced by ./drawlist, c/library, c/run, c/calls, bench/run and bench/stack: what programs for x86-64 are run under, and
# how a C program is compiled and linked with the calls of spireslate.h. What builds or looks for something is called in
# the repository's folder. What fails says why on standard error.

kit=$(dirname "$(rt doc)")/toolchain
exports=crates/call_c_c
library=target/staticlib/libcall_c.a
made=target/c

# Whether a file that rt made is there and nothing that it is made of is newer.
is_current() {
    [ -s "$1" ] || return 1
    [ -z "$(find crates.txt crates/*/src crates/*/specs crates/*/proofs -newer "$1" -print 2>/dev/null | sed 1q)" ]
}

# Runs a program that was built here: on x86-64 it has that machine's own loader and C library, as under rt. On another
# processor it has the kit's, and the system's emulator, without which no command of the kit runs there.
run_built() {
    if [ "$(uname -m)" = x86_64 ]; then "$@"; else "$kit/lib/ld-linux-x86-64.so.2" --library-path "$kit/lib" "$@"; fi
}

install_cross() {
    apt-get update && DEBIAN_FRONTEND=noninteractive apt-get install -y gcc-x86-64-linux-gnu libc6-dev-amd64-cross
}

# The kit's own clang has no C headers, so that it serves only for what rt compiles. On another processor than x86-64
# Debian's cross compiler is installed where it is missing.
find_compiler() {
    mkdir -p "$made" target/log || return 1
    if [ "$(uname -m)" = x86_64 ]; then
        compiler=gcc
        command -v "$compiler" >/dev/null || compiler=cc
    else
        compiler=x86_64-linux-gnu-gcc
        command -v "$compiler" >/dev/null || install_cross >target/log/c.apt 2>&1 ||
            echo "the cross compiler could not be installed (target/log/c.apt has what apt-get said)" >&2
    fi
    command -v "$compiler" >/dev/null || { echo "there is no C compiler for x86-64" >&2; return 1; }
}

# Builds the library anew: an archive of an earlier run is not to be linked by mistake. rt writes it beside the crate.
build_library() {
    archive=$exports/out/libcall_c_c.a
    mkdir -p target/log "$(dirname "$library")" && rm -f "$library" "$archive" || return 1
    if (cd "$exports" && rt lib) >target/log/c.lib 2>&1 && [ -s "$archive" ]; then cp "$archive" "$library"; return; fi
    tail -n 20 target/log/c.lib >&2
    echo "rt wrote no $archive (target/log/c.lib has what it said)" >&2
    return 1
}

# Compiles c/NAME.c to target/c/NAME.
compile() {
    rm -f "$made/$1"
    "$compiler" -std=c11 -pedantic -O2 -Wall -Wextra -Werror -o "$made/$1" "c/$1.c" "$library"
}
