#!/bin/sh
# Finds, in the library's object code, one memmove for each run of bytes that store and read copy, a memset in clear, and no array of
# 64 KB on the stack: the compiler is to make the copy's two copies one memmove. Ends with status 1 otherwise.
set -eu
cd "$(dirname "$0")/.."
mkdir -p target
tools/static bench_element >target/bench.log 2>&1 || { cat target/bench.log; exit 1; }
lib=target/staticlib/libbench_element.a
bad=0

has() { # FUNCTION CALLEE COUNT
    n=$(objdump -r -j ".text.$1" "$lib" | grep -c "[[:space:]]$2\\([-+]\\|\$\\)" || true)
    if [ "$n" -eq "$3" ]; then
        echo "$1 calls $2 ($n)"
    else
        echo "$1 should have $3 calls of $2, and has $n"
        bad=1
    fi
}

has element_store memmove 1
has element_read memmove 2
has element_clear memset 1
if objdump -d "$lib" | grep -qE 'sub +\$0x[0-9a-f]{4,},%rsp'; then
    echo "an array of 64 KB is left on the stack"
    bad=1
fi
exit "$bad"
