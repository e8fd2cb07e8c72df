#!/bin/sh
# Request 2026-02: the cursor step divides nowhere. Finds no `/` or `%` in the code of crate cursor (comments and contracts aside), and no
# division instruction in the object code of the step. Ends with status 1 otherwise.
set -eu
cd "$(dirname "$0")/.."
mkdir -p target
bad=0

# Code is what is left without comments, contracts (`requires`, `ensures`) and ghost lines.
if sed -e 's://.*$::' crates/cursor/src/lib.rt | grep -vE '^ghost |^ *(requires|ensures) ' | grep -n '[/%]'; then
    echo "crate cursor divides"
    bad=1
fi

tools/static bench_cursor >target/bench.log 2>&1 || { cat target/bench.log; exit 1; }
code=$(objdump -d -j .text.cursor_step target/staticlib/libbench_cursor.a)
case $code in
*cursor_step*ret*) ;;
*)
    echo "no cursor_step in the object code"
    bad=1
    ;;
esac
if echo "$code" | grep -qE '[[:space:]]i?div[lqwb]?[[:space:]]'; then
    echo "the cursor step has a division instruction"
    bad=1
fi
[ "$bad" -eq 0 ] && echo "the cursor step has no division and no remainder"
exit "$bad"
