#!/bin/sh
# Builds the fuzz target and runs it. The corpus grows in its folder; an input that breaks a promise is left in
# target/fuzz/findings.
set -eu
here=$(cd "$(dirname "$0")" && pwd)
root=$(cd "$here/../.." && pwd)
archive= seconds=60 corpus=$root/target/fuzz/corpus

usage() {
    echo "usage: $0 [--archive FILE] [--seconds N] [--corpus FOLDER] [WORDS FOR THE FUZZER]" >&2
    exit 2
}
while [ $# -gt 0 ]; do
    case $1 in
    --archive | --seconds | --corpus)
        [ $# -ge 2 ] || usage
        case $1 in
        --archive) archive=$2 ;;
        --seconds) seconds=$2 ;;
        --corpus) corpus=$2 ;;
        esac
        shift 2
        ;;
    -*) break ;;
    *) usage ;;
    esac
done
# the instrumented archive, where there is one
if [ -z "$archive" ]; then
    archive=$root/target/fuzz/libmd.a
    [ -f "$archive" ] || archive=$root/target/staticlib/libmd.a
fi
[ -f "$archive" ] || { echo "no archive at $archive: run tools/archive.sh" >&2; exit 2; }

out=$root/target/fuzz
mkdir -p "$out/findings" "$corpus"
python3 "$here/seeds.py" "$out/seeds"
build() { ${CLANG:-clang} -std=c99 -O1 -g -Wall -Wextra -Werror -I "$root/hosts/c" "$@"; }
# what changes the inputs is not counted as covered
build -fsanitize=address -c -o "$out/mutate.o" "$here/mutate.c"
build -fsanitize=fuzzer,address -o "$out/fuzz" "$here/fuzz.c" "$here/questions.c" "$out/mutate.o" "$archive"
echo "the archive: $archive"
exec "$out/fuzz" -max_total_time="$seconds" -max_len=4096 -artifact_prefix="$out/findings/" "$@" "$corpus" "$out/seeds"
