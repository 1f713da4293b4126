#!/bin/sh
# Writes target/fuzz/libmd.a: the archive of tools/archive.sh, proved and compiled likewise, with the fuzzer's counters in it.
# The kit's compiler is called through a wrapper that adds them; RATTLE_HOME names the kit.
set -eu
root=$(cd "$(dirname "$0")/../.." && pwd)
home=${RATTLE_HOME:-/opt/rattle}
out=$root/target/fuzz
tools=$(mktemp -d)
trap 'rm -rf "$tools"' EXIT

mkdir -p "$out" "$tools/bin"
ln -s "$home/toolchain/lib" "$tools/lib"
for tool in ld.lld llvm-ar; do ln -s "$home/toolchain/bin/$tool" "$tools/bin/$tool"; done
cat >"$tools/bin/clang" <<END
#!/bin/sh
case " \$* " in *" -c "*) set -- "\$@" -fsanitize-coverage=inline-8bit-counters,pc-table,trace-cmp ;; esac
exec "$home/toolchain/bin/clang" "\$@"
END
chmod +x "$tools/bin/clang"

cd "$root/crates/md_c"
# builds the libraries below it
"$home/bin/rt" lib
set --
for name in $(sed -n 's/^md_c staticlib: *//p' "$root/crates.txt"); do
    set -- "$@" --extern "$name=$root/crates/$name/out/rlib/$name.rlib"
done
for below in "$root"/crates/*/out/rlib; do set -- "$@" -L "dependency=$below"; done
"$home/bin/rattle" build --crate-name md_c src/lib.rt "$@" -L "dependency=$home/rlibs" \
    --antt-project "$home/rattle/logic/antt-project.json" --logic-built "$home/logic_built" --toolchain "$tools" \
    --backend llvm --crate-type staticlib -o "$out/libmd.a"
nm "$out/libmd.a" | grep -q __sanitizer_cov_8bit_counters_init || { echo "no counters in $out/libmd.a" >&2; exit 1; }
echo "$out/libmd.a has the counters"
