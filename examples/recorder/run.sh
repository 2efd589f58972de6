#!/usr/bin/env bash
# run.sh PROGRAM [HISTORIES] [CHANGED]: histories of other queues, as recorder.h writes them, judged by `dashboard check`: those of AOSP's native
# looper, of GLib's main context and of Qt's event loop. PROGRAM is the built dashboard. So many histories of each must be legal, and
# of so many with one reply changed that entry is found. What isn't installed is skipped with a line.
set -eu
here=$(cd "$(dirname "$0")" && pwd)
program=$(realpath "${1:?usage: run.sh PROGRAM [HISTORIES] [CHANGED]}")
histories=${2:-1000} changed=${3:-30}
out=$(mktemp -d)
trap 'rm -rf "$out"' EXIT
status=0

told() {
    echo "examples/recorder: $*"
}

# judged NAME WORD..: builds NAME.cpp with these words of the compiler, and runs it
judged() {
    local name=$1
    shift
    g++ -std=c++17 -O1 -w "$here/$name.cpp" -o "$out/$name" "$@"
    "$out/$name" "$program" "$histories" "$changed" || status=1
}

if ! command -v g++ >/dev/null || ! command -v gcc >/dev/null; then
    told "skipped, there is no gcc and g++"
    exit 0
fi
gcc -std=c11 -D_POSIX_C_SOURCE=200809L -Wall -Wextra -Werror -fsyntax-only -x c "$here/recorder.h"
folder=/usr/lib/$(gcc -dumpmachine)/android
if [ -f /usr/include/android/utils/Looper.h ]; then
    judged aosp -isystem /usr/include/android "-L$folder" -lutils -llog -lcutils -lbase "-Wl,-rpath,$folder"
else
    told "AOSP skipped, android-libutils-dev is not installed"
fi

# flags PACKAGE: what pkg-config says of it
flags() {
    command -v pkg-config >/dev/null && pkg-config --cflags --libs "$1" 2>/dev/null
}
if words=$(flags glib-2.0); then
    # shellcheck disable=SC2086
    judged glib $words
else
    told "GLib skipped, libglib2.0-dev or pkg-config is not installed"
fi
if words=$(flags Qt5Core); then
    # shellcheck disable=SC2086
    judged qt -fPIC $words
else
    told "Qt skipped, qtbase5-dev or pkg-config is not installed"
fi
[ "$status" = 0 ] || told "a history was judged otherwise than wanted"
exit "$status"
