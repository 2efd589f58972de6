#!/usr/bin/env bash
# Builds the window with SDL2, runs it on a screen of its own (Xvfb), and compares what the screen shows with still.txt, coarsely.
# Skipped with a line where SDL2, Xvfb or python3 isn't there. With an argument, the built program is put there and nothing is run.
set -eu
here=$(cd "$(dirname "$0")" && pwd)
told() {
    echo "examples/window: $*"
}
command -v sdl2-config >/dev/null || {
    told "skipped, there is no SDL2"
    exit 0
}
c=$(cd "$here/../../c" && pwd)
"$c/build.sh"
out=$(mktemp -d)
screen=
trap '[ -z "$screen" ] || kill "$screen" 2>/dev/null; rm -rf "$out"' EXIT
read -ra flags <<<"$(sdl2-config --cflags --libs | tr '\n' ' ')"
built=$c/out/$(uname -m)-linux-gnu/libmessage_loop.a
"${CC:-cc}" -std=c11 -D_DEFAULT_SOURCE -O2 -Wall -Wextra -Werror -I"$c" -I"$c/../crates/animator_c/include" "$here/window.c" "$built" "${flags[@]}" -lm -lpthread -o "$out/window"
if [ $# -gt 0 ]; then
    cp "$out/window" "$1"
    exit 0
fi
for it in Xvfb python3; do
    command -v "$it" >/dev/null || {
        told "built, and its run skipped, there is no $it"
        exit 0
    }
done
# Xvfb takes the first free number and tells it.
Xvfb -displayfd 3 -screen 0 640x240x24 -fbdir "$out" -nolisten tcp 3>"$out/number" 2>"$out/xvfb.log" &
screen=$!
for _ in $(seq 100); do
    [ ! -s "$out/number" ] || break
    sleep 0.1
done
[ -s "$out/number" ] || {
    told "its run skipped, Xvfb does not start here"
    exit 0
}
DISPLAY=:$(cat "$out/number")
export DISPLAY
SDL_VIDEODRIVER=x11 "$out/window" 4 still >"$out/said" &
window=$!
# The gauges run for 0.4 seconds. On a busy machine they come later.
right=1
for _ in $(seq 35); do
    sleep 0.1
    if python3 "$here/coarse.py" "$out/Xvfb_screen0" "$here/still.txt" >"$out/compared" 2>&1; then
        right=0
        break
    fi
done
wait "$window"
told "$(cat "$out/said"); $(tail -1 "$out/compared")"
exit "$right"
