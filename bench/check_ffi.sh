#!/bin/sh
# Checks the library's C functions on fixed bytes against answers written out by hand, and that they give back all memory,
# also where an allocation is refused. It needs a C compiler and no SQLite.
# Usage: bench/check_ffi.sh [LIBRARY]
# LIBRARY is libcs_ffi.a as `rt lib` leaves it (crates/cs_ffi/out/libcs_ffi.a); where none is given, it is built.
set -eu
bench="$(cd "$(dirname "$0")" && pwd)"
library="${1:-}"
. "$bench/common.sh"
mkdir -p "$out"
build_library
cc -O2 -Wall -Wextra -Wl,--wrap=malloc,--wrap=realloc,--wrap=free "$bench/check_ffi.c" "$library" "$(heap_library)" \
    -o "$out/check_ffi"
timeout 300 "$out/check_ffi"
