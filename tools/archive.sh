#!/bin/sh
# Proves the crate md_c, with all that it stands on, and writes the archive for hosts: target/staticlib/libmd.a.
set -eu
root=$(cd "$(dirname "$0")/.." && pwd)
cd "$root/crates/md_c"
rt lib
mkdir -p "$root/target/staticlib"
cp out/libmd_c.a "$root/target/staticlib/libmd.a"
echo "wrote target/staticlib/libmd.a"
