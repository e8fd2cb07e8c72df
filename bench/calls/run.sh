#!/bin/sh
# Times calls over a lent table, and the send of a head and a body. The crates are copied to a folder outside the checkout, and group_c, beside
# this script, which calls `group_make::make` without flat structs, is proved with them and built. Takes some minutes.
# The files of group_c end in .in, since it is no crate that crates.txt lists.
set -eu
cd "$(dirname "$0")/../.."
copy=$(mktemp -d)
trap 'rm -rf "$copy"' EXIT
below="cursor cdc link_message layout link_exchange closing gauge flow element conn_record conn_answer conn_send conn_gather conn_receive conn_hear"
below="$below conn_finish group_table link_failover"
below="$below link_calls group_rules group_calls group_desk group_make"
below="$below group_gather"
mkdir -p "$copy/crates" target/staticlib
for name in $below; do
    mkdir "$copy/crates/$name"
    for part in src specs proofs; do
        [ ! -d "crates/$name/$part" ] || cp -r "crates/$name/$part" "$copy/crates/$name/"
    done
done
cp -r bench/calls/group_c "$copy/crates/"
find "$copy/crates/group_c" -name '*.in' | while read -r f; do mv "$f" "${f%.in}"; done
{
    for name in $below; do grep "^$name:" crates.txt; done
    echo "group_c staticlib: $below"
} >"$copy/crates.txt"
(cd "$copy/crates/group_c" && rt lib) >target/calls.log 2>&1 || {
    tail -20 target/calls.log
    exit 1
}
cp "$copy/crates/group_c/out/libgroup_c.a" target/staticlib/
export RUSTFLAGS="-L native=$PWD/target/staticlib" CARGO_TARGET_DIR="$PWD/target/bench"
cargo run --quiet --release --manifest-path bench/calls/Cargo.toml
