#!/usr/bin/env bash
# build.sh [TARGET]: makes c/out/TARGET/libmessage_loop.a and libmessage_loop.so, of the six proved libraries, the loop and the heap
# over malloc. TARGET is a compiler's triple: this machine's, or x86_64-linux-gnu or aarch64-linux-gnu. Each target has a folder of its
# own, so that none takes another's archive. CC, if set, is the compiler, else TARGET-gcc or cc.
# build.sh wasm64: makes modules for a page, c/out/wasm64/NAME.wasm, of the three libraries that have no heap.
set -eu
here=$(cd "$(dirname "$0")" && pwd)
crates=$(cd "$here/../crates" && pwd)
host=$(uname -m)-linux-gnu
target=${1:-$host}
case $target in
x86_64-linux-gnu | aarch64-linux-gnu) triple=${target%%-*}-unknown-linux-gnu ;;
wasm64) triple=wasm64-unknown-unknown ;;
*)
    echo "c/build.sh: the targets are x86_64-linux-gnu, aarch64-linux-gnu and wasm64" >&2
    exit 2
    ;;
esac
if [ -z "${CC:-}" ]; then
    CC=cc
    [ "$target" = "$host" ] || CC=$target-gcc
fi
ar=ar
[ "$target" = "$host" ] || ar=$target-ar
out=$here/out/$target
mkdir -p "$out/core"

# core NAME CRATE..: the proved library NAME, which stands on those crates; made where it isn't there or is older than their sources
core() {
    local name=$1 kept=$out/core/lib$1.a sources=("$crates/../crates.txt")
    for crate in "$@"; do sources+=("$crates/$crate/src"); done
    if [ -f "$kept" ] && [ -z "$(find "${sources[@]}" -newer "$kept" -print -quit)" ]; then return; fi
    local made=$crates/$name/out/lib$name.a flags=()
    # An archive that lies there is taken if it is this machine's and newer than the sources.
    if [ "$target" != "$host" ]; then
        flags=(--target "$triple")
        [ ! -f "$made" ] || mv "$made" "$made.host" # rt has one name for all targets
    elif [ ! -f "$made" ] || [ -n "$(find "${sources[@]}" -newer "$made" -print -quit)" ]; then
        rm -f "$made"
    fi
    local failed=0
    [ -f "$made" ] || echo "c/build.sh: proving and building $name, which may take minutes" >&2
    [ -f "$made" ] || (cd "$crates/$name" && rt lib ${flags[@]+"${flags[@]}"}) >"$out/$name.log" 2>&1 || failed=1
    [ "$failed" = 1 ] || cp "$made" "$kept"
    if [ "$target" != "$host" ]; then
        rm -f "$made"
        [ ! -f "$made.host" ] || mv "$made.host" "$made"
    fi
    [ "$failed" = 0 ] || {
        cat "$out/$name.log" >&2
        exit 1
    }
}
core loop_next_c
core countdown_c countdown
core animator_c countdown animator
if [ "$target" = wasm64 ]; then
    kit=$(dirname "$(dirname "$(readlink -f "$(command -v rt)")")")
    for name in loop_next_c countdown_c animator_c; do
        "$kit/bin/rattle-link" --target "$triple" --toolchain "$kit/toolchain" --memory 1310720 -o "$out/$name.wasm" "$out/core/lib$name.a" 2>"$out/$name.log" || {
            cat "$out/$name.log" >&2
            exit 1
        }
    done
    exit 0
fi
core message_queue_c heap_value loop_model message_slot message_list when_queue queue_state
core frame_phases_c heap_value loop_model frame_phases
core loop_sources_c heap_value loop_model loop_sources

include=()
for name in message_queue_c frame_phases_c loop_sources_c loop_next_c countdown_c animator_c; do include+=("-I$crates/$name/include"); done
flags=(-std=c11 -O2 -g -fPIC -fvisibility=hidden -Wall -Wextra -Werror "-I$here" "${include[@]}")
objects=()
for source in "$here"/message_loop_{posix,frames,sources,system,poll}.c "$here/../examples/embed/heap.c"; do
    object=$out/$(basename "$source" .c).o
    $CC "${flags[@]}" -fvisibility=default -c "$source" -o "$object"
    objects+=("$object")
done
rm -f "$out/libmessage_loop.a"
{
    echo "create $out/libmessage_loop.a"
    for library in "$out"/core/*.a; do echo "addlib $library"; done
    for object in "${objects[@]}"; do echo "addmod $object"; done
    printf 'save\nend\n'
} | $ar -M

version() {
    sed -n "s/^#define MLP_VERSION_$1 //p" "$here/message_loop_posix.h"
}
major=$(version MAJOR)
full=$major.$(version MINOR).$(version PATCH)
echo "MESSAGE_LOOP_$major { global: msgq_*; mloop_*; mlp_*; rattle_*; local: *; };" >"$out/exports.map"
$CC -shared -o "$out/libmessage_loop.so.$full" "-Wl,-soname,libmessage_loop.so.$major" "-Wl,--version-script=$out/exports.map" -Wl,-z,defs \
    -Wl,--whole-archive "$out/libmessage_loop.a" -Wl,--no-whole-archive -lpthread
ln -sf "libmessage_loop.so.$full" "$out/libmessage_loop.so.$major"
ln -sf "libmessage_loop.so.$major" "$out/libmessage_loop.so"
echo "$full" >"$out/version"
