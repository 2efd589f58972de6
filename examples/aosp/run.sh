#!/usr/bin/env bash
# run.sh PROGRAM [SEQUENCES] [SCRIPTS] [DESCRIPTORS]: AOSP's native Looper, as Debian's android-libutils has it, beside the queue for C and beside
# `dashboard run`, and its histories judged by `dashboard check`. PROGRAM is the built dashboard. Ends with 1 where a common
# class differs, or where a planted fault isn't seen. SEED is the first seed. What isn't installed is skipped with a line.
set -eu
here=$(cd "$(dirname "$0")" && pwd)
crate=$here/../../crates/message_queue_c
library=$crate/out/libmessage_queue_c.a
program=$(realpath "${1:?usage: run.sh PROGRAM [SEQUENCES] [SCRIPTS] [DESCRIPTORS]}")
sequences=${2:-1000} scripts=${3:-1000} descriptors=${4:-100} seed=${SEED:-1}
out=$(mktemp -d)
trap 'rm -rf "$out"' EXIT

told() {
    echo "examples/aosp: $*"
}

for need in g++ gcc; do
    if ! command -v "$need" >/dev/null; then
        told "skipped, there is no $need"
        exit 0
    fi
done
folder=/usr/lib/$(gcc -dumpmachine)/android
if [ ! -f /usr/include/android/utils/Looper.h ]; then
    told "skipped, android-libutils-dev is not installed"
    exit 0
fi
if [ ! -f "$library" ]; then
    told "skipped, there is no $library: examples/embed/build.sh makes it"
    exit 0
fi

flags=(-std=c++17 -O1 -w -isystem /usr/include/android "-I$crate/include")
link=("-L$folder" -lutils -llog -lcutils -lbase "-Wl,-rpath,$folder")
gcc -std=c11 -O1 "-I$crate/include" -c "$here/../embed/heap.c" -o "$out/heap.o"
for name in queues scripts descriptors; do
    g++ "${flags[@]}" "$here/$name.cpp" "$out/heap.o" "$library" -o "$out/$name" "${link[@]}"
done

status=0
"$out/queues" --seed "$seed" --count "$sequences" || status=1
"$out/scripts" "$program" --seed "$seed" --count "$scripts" || status=1
"$out/descriptors" "$program" --seed "$seed" --count "$descriptors" || status=1

# planted NAME PLANT WORD..: this plant must make a difference
planted() {
    local name=$1 plant=$2
    shift 2
    if "$out/$name" "$@" --seed 3 --plant "$plant" >/dev/null; then
        told "plant $plant of $name isn't seen"
        status=1
    fi
}
for plant in 1 2 3 4 5; do planted queues "$plant" --count 100; done
for plant in 1 2 3; do planted scripts "$plant" "$program" --count 3; done
planted descriptors 1 "$program" --count 10
# what differs by design differs
for class in zero ragged unpolled; do
    if "$out/queues" --seed 3 --count 100 --class "$class" >"$out/$class"; then
        told "the class $class, which differs by design, doesn't"
        status=1
    fi
done
[ "$status" != 0 ] || told "no difference, and each planted fault is seen"
exit "$status"
