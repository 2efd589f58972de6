#!/usr/bin/env bash
# build.sh [--long]: builds the examples over the static library and runs them: those in C with each compiler that is there, plainly,
# under the address and undefined sanitizers, and under valgrind's memcheck and helgrind (the thread sanitizer can't see into the
# library, valgrind can); those in Rust with rustc. It also tries that the header compiles as C99 to C++20, and that what it is to
# warn of is warned of. What isn't there is skipped with a line.
# A library is made by rt lib where it isn't there or is older than the sources: that checks its crate once more, and below it what
# changed.
set -eu
here=$(cd "$(dirname "$0")" && pwd)
crates=$(cd "$here/../../crates" && pwd)
crate=$crates/message_queue_c
library=$crate/out/libmessage_queue_c.a
steps=100000
[ "${1:-}" != --long ] || steps=10000000
out=$(mktemp -d)
trap 'rm -rf "$out"' EXIT

told() {
    echo "examples/embed: $*"
}

compilers=()
for compiler in gcc clang; do
    if command -v "$compiler" >/dev/null; then
        compilers+=("$compiler")
    else
        told "$compiler skipped, it is not installed"
    fi
done
if [ "${#compilers[@]}" = 0 ]; then
    told "skipped, there is no C compiler"
    exit 0
fi
# made NAME CRATE..: the library NAME, which stands on those crates
made() {
    local name=$1 sources=("$crates/../crates.txt") it=$crates/$1/out/lib$1.a
    for one in "$@"; do sources+=("$crates/$one/src"); done
    if [ -f "$it" ] && [ -z "$(find "${sources[@]}" -newer "$it" -print -quit)" ]; then return; fi
    if ! command -v rt >/dev/null; then
        told "skipped, there is no rt to make $it"
        exit 0
    fi
    (cd "$crates/$name" && rt lib) >"$out/rt.txt" 2>&1 || {
        cat "$out/rt.txt"
        exit 1
    }
}
made message_queue_c loop_model heap_value message_slot message_list when_queue queue_state
made frame_phases_c loop_model heap_value frame_phases
made loop_next_c
made countdown_c countdown
made animator_c countdown animator

# build COMPILER SANITIZER NAME TOOL: one example, with its heap, at $program; jobs run beside each other, so each has a program of its own
build() {
    local flags=() heap=("$here/heap.c") others=()
    program=$out/$1-$2-$3-$4
    [ "$2" = none ] || flags=("-fsanitize=$2")
    case $3 in
    no_memory | misuse) heap=() ;;
    arena | device) heap=("$here/arena_heap.c") ;;
    esac
    [ "$3" != device ] || for other in frame_phases_c loop_next_c countdown_c animator_c; do others+=("-I$crates/$other/include" "$crates/$other/out/lib$other.a"); done
    "$1" -std=c11 -D_POSIX_C_SOURCE=200809L -O1 -g -Wall -Wextra -Werror ${flags[@]+"${flags[@]}"} -I"$crate/include" \
        "$here/$3.c" ${heap[@]+"${heap[@]}"} "$library" ${others[@]+"${others[@]}"} -lpthread -o "$program"
}

run_one() {
    build "$1" "$2" "$3" plain
    "$program" "$steps" >"$program.txt"
}

# under TOOL NAME: one example under a tool of valgrind's
under() {
    build "${compilers[0]}" none "$2" "$1"
    local flags=()
    [ "$1" != memcheck ] || flags=(--leak-check=full --show-leak-kinds=all)
    valgrind -q "--tool=$1" --error-exitcode=9 ${flags[@]+"${flags[@]}"} "$program" 5000 >"$program.txt"
}

# can COMPILER SANITIZER: its programs link and run here
can() {
    [ "$2" = none ] && return
    echo 'int main(void) { return 0; }' | "$1" "-fsanitize=$2" -x c - -o "$out/probe" 2>/dev/null && "$out/probe" 2>/dev/null
}

# The header without a warning, in each language.
header() {
    local warnings=(-pedantic -Wall -Wextra -Wconversion -Wshadow -Wcast-qual -Werror "-I$crate/include") language
    printf '#include "message_queue.h"\nint main(void) { msgq_queue q = MSGQ_CLOSED; return msgq_open(&q) ? 0 : 1; }\n' >"$out/it.c"
    for language in c99 c11 c17 c2x; do
        "$1" "-std=$language" "${warnings[@]}" -c "$out/it.c" -o /dev/null
    done
    echo 'int main() { return 0; }' | "$1" -x c++ -c - -o /dev/null 2>/dev/null || return 0
    for language in c++98 c++11 c++14 c++17 c++20; do
        "$1" -x c++ "-std=$language" "${warnings[@]}" -Wno-long-long -Wold-style-cast -Wzero-as-null-pointer-constant -c "$out/it.c" -o /dev/null
    done
}

# refused COMPILER LINE: the line is warned of
refused() {
    printf '#include "message_queue.h"\nint it(msgq_queue *q, const msgq_message *m, const msgq_queue *c) { (void)m; (void)c; %s return 0; }\n' "$2" >"$out/$1-refused.c"
    if "$1" -std=c11 -Wall -Wextra -Werror -I"$crate/include" -c "$out/$1-refused.c" -o /dev/null 2>/dev/null; then
        echo "no warning of: $2" >&2
        return 1
    fi
}

warned() {
    if [ "$1" = gcc ]; then # clang compares any two numbers; no number is of both kinds
        refused "$1" 'return msgq_next(q, 1, false).kind == MSGQ_DONE;'
        refused "$1" 'return msgq_post(q, m).kind == MSGQ_TAKEN;'
    fi
    refused "$1" 'msgq_post(q, m);'
    refused "$1" 'msgq_quit(q, true, 1);'
    refused "$1" 'return msgq_live(c) == 0 || msgq_quit(c, true, 1).wake;'
    refused "$1" 'switch (msgq_next(q, 1, false).kind) { case MSGQ_TAKEN: return 1; }'
    if refused "$1" 'return msgq_live(c) == 0 || msgq_time(c) == 0 || msgq_post(q, m).kind == MSGQ_DONE;' 2>/dev/null; then return 1; fi
}

# A header of another interface than the library's opens nothing.
other_interface() {
    sed 's/^#define MSGQ_INTERFACE 1$/#define MSGQ_INTERFACE 2/' "$crate/include/message_queue.h" >"$out/other.h"
    grep -q 'MSGQ_INTERFACE 2' "$out/other.h"
    printf '#include "other.h"\nint main(void) { msgq_queue q = MSGQ_CLOSED; return msgq_open(&q) || q.core.live; }\n' >"$out/other.c"
    "$1" -std=c11 "-I$out" "$out/other.c" "$here/heap.c" "-I$crate/include" "$library" -o "$out/other"
    "$out/other"
}

jobs=()
# begin NAME WORD..: a job beside the others
begin() {
    local name=$1
    shift
    "$@" 2>"$out/$name.log" &
    jobs+=("$! $name")
}

for compiler in "${compilers[@]}"; do
    for sanitizer in none address,undefined; do
        if ! can "$compiler" "$sanitizer"; then
            told "$compiler with $sanitizer skipped, its programs don't run here"
            continue
        fi
        for name in calls looper no_memory misuse arena device; do
            begin "$compiler-$sanitizer-$name" run_one "$compiler" "$sanitizer" "$name"
        done
    done
    begin "$compiler-header" header "$compiler"
    begin "$compiler-warnings" warned "$compiler"
done
begin other_interface other_interface "${compilers[0]}"
if command -v valgrind >/dev/null; then
    for name in calls looper no_memory misuse arena device; do begin "memcheck-$name" under memcheck "$name"; done
    begin helgrind-looper under helgrind looper
else
    told "memcheck and helgrind skipped, valgrind is not installed"
fi

if command -v rustc >/dev/null && "${compilers[0]}" -c -O1 -I"$crate/include" "$here/heap.c" -o "$out/heap.o"; then
    rust() {
        rustc --edition 2024 -O -D warnings --crate-type rlib "$here/message_queue.rs" -o "$out/libmessage_queue.rlib" >&2
        rustc --edition 2024 -O -D warnings "$here/looper.rs" --extern "message_queue=$out/libmessage_queue.rlib" \
            -C link-arg="$library" -C link-arg="$out/heap.o" -o "$out/looper_rs" >&2
        "$out/looper_rs" >"$out/rust.txt"
    }
    begin rust rust
else
    told "the crate in Rust skipped, there is no rustc"
fi

failed=0
for job in "${jobs[@]}"; do
    if ! wait "${job%% *}"; then
        told "${job#* } failed"
        cat "$out/${job#* }.log"
        failed=1
    fi
done
[ "$failed" = 0 ] && told "${#jobs[@]} runs passed"
exit "$failed"
