#!/usr/bin/env bash
# Builds and runs the tests of the loop in C: with each compiler that is there, plainly and under the address and the undefined
# sanitizer, by poll and a pipe too, under valgrind's memcheck and helgrind (the thread sanitizer can't see into the proved
# libraries, valgrind can), as C++, beside POSIX's own queues, installed by pkg-config and CMake, and for aarch64 under qemu. What isn't
# there is skipped with a line. run.sh --long is for aarch64 and wasm64 too, whose libraries it makes, and its long run has 10 million messages and 100,000 frames.
set -eu
long=
[ "${1:-}" != --long ] || long=1
here=$(cd "$(dirname "$0")" && pwd)
c=$(dirname "$here")
crates=$c/../crates
host=$(uname -m)-linux-gnu
out=$(mktemp -d)
trap 'rm -rf "$out"' EXIT
runs=0

told() {
    echo "c/tests: $*"
}

has() {
    command -v "$1" >/dev/null || {
        told "$1 skipped, it is not installed"
        return 1
    }
}

# run NAME WORD..: one run, whose output is shown where it fails or does not end
run() {
    local name=$1
    shift
    timeout 300 "$@" >"$out/said" 2>&1 || {
        told "$name failed: status $?"
        cat "$out/said"
        exit 1
    }
    runs=$((runs + 1))
    echo "$name: $(tail -1 "$out/said")" >>"$out/all"
}

"$c/build.sh"
core=("$c/out/$host/core"/*.a)
include=("-I$c" "-I$here" "-I$crates/message_queue_c/include" "-I$crates/frame_phases_c/include" "-I$crates/loop_sources_c/include" "-I$crates/loop_next_c/include"
    "-I$crates/countdown_c/include" "-I$crates/animator_c/include")
loop=("$c"/message_loop_{posix,frames,sources,system,poll}.c)
flags=(-std=c11 -D_POSIX_C_SOURCE=200809L -D_DEFAULT_SOURCE -O1 -g -Wall -Wextra -Werror "${include[@]}")
heap=$c/../examples/embed/heap.c

for cc in gcc clang; do
    has "$cc" || continue
    for sanitizer in none address,undefined; do
        with=()
        [ "$sanitizer" = none ] || with=("-fsanitize=$sanitizer" -fno-sanitize-recover=all)
        for port in "" -DMLP_PORTABLE; do
            [ -z "$port" ] || [ "$cc" = gcc ] || [ -n "$long" ] || continue
            it=$out/$cc-$sanitizer$port
            "$cc" "${flags[@]}" ${with[@]+"${with[@]}"} ${port:+"$port"} "$here/loop.c" "${loop[@]}" "$heap" "${core[@]}" -lpthread -o "$it"
            run "loop $cc $sanitizer $port" "$it"
            "$cc" "${flags[@]}" ${with[@]+"${with[@]}"} ${port:+"$port"} "$here/while_running.c" "${loop[@]}" "$heap" "${core[@]}" -lpthread -o "$it"
            run "while_running $cc $sanitizer $port" "$it"
        done
        "$cc" "${flags[@]}" ${with[@]+"${with[@]}"} "$here/core_calls.c" "$heap" "${core[@]}" -lrt -o "$out/core"
        run "core_calls $cc $sanitizer" "$out/core"
        for name in next countdown animator; do
            "$cc" "${flags[@]}" ${with[@]+"${with[@]}"} "$here/$name.c" "${core[@]}" "$heap" -o "$out/$name"
            run "$name $cc $sanitizer" "$out/$name"
        done
        "$cc" "${flags[@]}" ${with[@]+"${with[@]}"} "$here/no_memory.c" "${loop[@]}" "${core[@]}" -lpthread -o "$out/no_memory"
        run "no_memory $cc $sanitizer" "$out/no_memory"
    done
done

if has valgrind; then
    cc=gcc
    command -v gcc >/dev/null || cc=clang
    "$cc" "${flags[@]}" -DPOSTS=200 "$here/loop.c" "${loop[@]}" "$heap" "${core[@]}" -lpthread -o "$out/plain"
    run memcheck valgrind -q --error-exitcode=9 --leak-check=full --show-leak-kinds=all "$out/plain"
    run helgrind valgrind -q --tool=helgrind --error-exitcode=9 "$out/plain"
    "$cc" "${flags[@]}" "$here/core_calls.c" "$heap" "${core[@]}" -lrt -o "$out/core"
    run "memcheck core_calls" valgrind -q --error-exitcode=9 --leak-check=full --show-leak-kinds=all "$out/core"
fi

cc=gcc
command -v gcc >/dev/null || cc=clang
# Histories as text: random calls on a queue, and a loop with threads. They are judged where the program is built.
judge=$crates/dashboard/out/dashboard
# judged NAME WANTED WORD..: the verdict on what the program writes begins so
judged() {
    local name=$1 wanted=$2
    shift 2
    run "$name" sh -c '"$@" >"$0"' "$out/trace" "$@"
    [ -x "$judge" ] || return 0
    "$judge" check <"$out/trace" >"$out/verdict" && grep -q "^$wanted" "$out/verdict" || {
        told "$name: $(head -1 "$out/verdict"), and not $wanted"
        exit 1
    }
}
[ -x "$judge" ] || told "histories are written and not judged, $judge is not built"
"$cc" "${flags[@]}" "$here/history.c" "$heap" "${core[@]}" -o "$out/history"
for seed in 1 2 3 4 5; do judged "history $seed" legal "$out/history" "$seed" 2000; done
judged "history with a wrong answer" illegal "$out/history" 6 500 wrong
"$cc" "${flags[@]}" "$here/loop_history.c" "${loop[@]}" "$heap" "${core[@]}" -lpthread -o "$out/loop_history"
judged "history of a loop" legal "$out/loop_history"
! command -v valgrind >/dev/null || run "helgrind history of a loop" sh -c 'valgrind -q --tool=helgrind --error-exitcode=9 "$1" >/dev/null' sh "$out/loop_history"

"$cc" "${flags[@]}" -O2 "$here/long_run.c" "${loop[@]}" "${core[@]}" -lpthread -o "$out/long"
if [ -n "$long" ]; then run long_run "$out/long" 10000000 100000; else run long_run "$out/long" 200000 2000; fi

# The headers without a warning, in each language and by each compiler.
cat >"$out/headers.c" <<'P'
#include "message_loop_posix.h"
#include "message_trace.h"
#include "frame_phases.h"
#include "loop_sources.h"
#include "loop_next.h"
#include "countdown.h"
#include "animator.h"
int main(void) { return mlp_version() == 0; }
P
headers=(-pedantic -Wall -Wextra -Wconversion -Wshadow -Wcast-qual -Werror "${include[@]}" -c "$out/headers.c" -o /dev/null)
for compiler in gcc clang; do
    has "$compiler" || continue
    for language in c99 c11 c17 c2x; do "$compiler" "-std=$language" "${headers[@]}"; done
done
for compiler in g++ clang++; do
    has "$compiler" || continue
    for language in c++98 c++11 c++14 c++17 c++20; do
        "$compiler" -x c++ "-std=$language" -Wno-long-long -Wold-style-cast -Wzero-as-null-pointer-constant "${headers[@]}"
    done
done
# warned LINE: the compiler warns of it, as it does where a pulse could be lost, or an answer is taken for one of another kind
warned() {
    printf '#include "frame_phases.h"\nint it(mloop_frames *f, const mloop_callback *c) { (void)c; %s return 0; }\n' "$1" >"$out/warned.c"
    ! "$cc" -std=c11 -Wall -Wextra -Werror "${include[@]}" -c "$out/warned.c" -o /dev/null 2>/dev/null || {
        told "no warning of: $1"
        exit 1
    }
}
warned 'mloop_frame_post(f, c, 1);'
warned 'mloop_frame_due(f, 0, 1);'
warned 'mloop_frame_schedule(f, 1);'
[ "$cc" != gcc ] || warned 'return mloop_frame_next(f, 1).kind == MLOOP_FRAME_ASKED;' # clang compares any two numbers
if has g++; then
    cat >"$out/it.cpp" <<'P'
#include "message_loop_posix.h"
#include "frame_phases.h"
#include "loop_sources.h"
int main()
{
    mloop_frames frames = MLOOP_FRAMES_CLOSED;
    mloop_sources sources = MLOOP_SOURCES_CLOSED;
    mlp_loop *loop = mlp_new(0);
    bool wrong = loop == nullptr || frames.core.live || sources.core.live;
    mlp_free(loop);
    return wrong;
}
P
    g++ -std=c++11 -Wall -Wextra -Werror "${include[@]}" "$out/it.cpp" "$c/out/$host/libmessage_loop.a" -lpthread -o "$out/cpp"
    run "C++" "$out/cpp"
fi

# All names are our own: none is POSIX's, whose queues are used beside ours.
"$cc" "${flags[@]}" "$here/posix_queues.c" "${loop[@]}" "$heap" "${core[@]}" -lpthread -lrt -o "$out/posix_queues"
run "queues of POSIX" "$out/posix_queues"
if nm -g --defined-only "$c/out/$host/libmessage_loop.a" | awk 'NF == 3 { print $3 }' | grep -vE '^(msgq|mloop|mlp|rattle)_'; then
    told "the library has names that are not its own"
    exit 1
fi

"$c/install.sh" "$out/prefix" >/dev/null
run "man page" sh -c '! { grep -n @VERSION@ "$1" || LC_ALL=C.UTF-8 man --warnings -E UTF-8 -l "$1" 2>&1 >/dev/null | grep . ; }' sh "$out/prefix/share/man/man3/message_loop.3"
grep -q 'mlp_version' "$out/prefix/include/message_loop/message_loop_posix.h"
PKG_CONFIG_PATH=$out/prefix/lib/pkgconfig
export PKG_CONFIG_PATH
plain=(-std=c11 -D_DEFAULT_SOURCE -O1 -Wall -Wextra -Werror "-I$here" "$here/loop.c")
if has pkg-config; then
    read -ra words <<<"$(pkg-config --cflags --libs message_loop)"
    "$cc" "${plain[@]}" "${words[@]}" -lpthread -o "$out/shared"
    readelf -d "$out/shared" | grep -q 'NEEDED.*libmessage_loop.so.0'
    run "shared library" env LD_LIBRARY_PATH="$out/prefix/lib" "$out/shared"
    read -ra words <<<"$(pkg-config --static --cflags --libs message_loop)"
    "$cc" "${plain[@]}" -static "${words[@]}" -o "$out/static"
    run "static library" "$out/static"
fi
if has cmake; then
    mkdir "$out/cmake"
    cat >"$out/cmake/CMakeLists.txt" <<P
cmake_minimum_required(VERSION 3.10)
project(it C)
find_package(message_loop 0.2 REQUIRED)
foreach(kind message_loop static)
  add_executable(it_\${kind} $here/loop.c)
  target_compile_definitions(it_\${kind} PRIVATE _DEFAULT_SOURCE)
  target_link_libraries(it_\${kind} message_loop::\${kind})
endforeach()
P
    cmake -S "$out/cmake" -B "$out/cmake/out" "-DCMAKE_PREFIX_PATH=$out/prefix" >"$out/said" && cmake --build "$out/cmake/out" >>"$out/said" || {
        cat "$out/said"
        exit 1
    }
    run "CMake shared" "$out/cmake/out/it_message_loop"
    run "CMake static" "$out/cmake/out/it_static"
fi

if [ -n "$long" ] && has node; then
    "$c/build.sh" wasm64
    run "wasm64" node --experimental-wasm-memory64 "$here/web.mjs" "$c/out/wasm64"
fi
# A program with no frames and no sources links none of theirs.
printf '#include <message_loop_posix.h>\nint main(void) { mlp_loop *loop = mlp_new(0); int wrong = loop == NULL || !mlp_quit(loop, true); mlp_run(loop); mlp_free(loop); return wrong; }\n' >"$out/plain.c"
"$cc" -std=c11 -Wall -Wextra -Werror "-I$c" "$out/plain.c" "$c/out/$host/libmessage_loop.a" -lpthread -o "$out/plain_loop"
run "loop without parts" "$out/plain_loop"
if nm "$out/plain_loop" | grep -E 'mloop_core_(frame|idle|fd|sources|countdown|animator)'; then
    told "a program without frames and sources links them"
    exit 1
fi
if [ -z "$long" ]; then
    told "aarch64 and wasm64 skipped, run.sh --long has them"
elif [ "$host" = x86_64-linux-gnu ] && has aarch64-linux-gnu-gcc && has qemu-aarch64; then
    "$c/install.sh" "$out/prefix" aarch64-linux-gnu >/dev/null
    lib=$out/prefix/lib/aarch64-linux-gnu
    aarch64-linux-gnu-gcc "${plain[@]}" "-I$out/prefix/include/message_loop" "-L$lib" -lmessage_loop -lpthread -o "$out/arm"
    run "aarch64 shared" qemu-aarch64 -L /usr/aarch64-linux-gnu -E "LD_LIBRARY_PATH=$lib" "$out/arm"
    aarch64-linux-gnu-gcc -std=c11 -D_DEFAULT_SOURCE -O1 "${include[@]}" "$here/core_calls.c" "$lib/libmessage_loop.a" -lpthread -lrt -static -o "$out/arm_core"
    run "aarch64 core_calls" qemu-aarch64 "$out/arm_core"
    embed=$c/../examples/embed
    aarch64-linux-gnu-gcc -std=c11 -D_DEFAULT_SOURCE -O1 "${include[@]}" "$embed/misuse.c" "$c/out/aarch64-linux-gnu/core/libmessage_queue_c.a" -lpthread -static -o "$out/arm_misuse"
    run "aarch64 misuse" qemu-aarch64 "$out/arm_misuse"
    aarch64-linux-gnu-gcc -std=c11 -O1 "${include[@]}" "$embed/arena.c" "$embed/arena_heap.c" "$c/out/aarch64-linux-gnu/core/libmessage_queue_c.a" -static -o "$out/arm_arena"
    run "aarch64 arena" qemu-aarch64 "$out/arm_arena" 100000
fi
cat "$out/all"
told "$runs runs passed"
