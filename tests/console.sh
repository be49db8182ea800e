#!/usr/bin/env bash
# Tries what no contract can say of the console: that an answer is written before it waits for more input, that answers are
# batched while input is at hand, that its memory stays bounded, and how it ends at an error or a closed pipe.
# Usage: tests/console.sh [PROGRAM]      (crates/console/out/console, which `rt run` in crates/console makes)
set -u
cd "$(dirname "$0")/.."
program=${1:-crates/console/out/console}
[ -x "$program" ] || { echo "no program at $program: run 'rt run' in crates/console first" >&2; exit 2; }
work=$(mktemp -d)
trap 'rm -rf "$work"' EXIT
failed=0

# expect NAME WANTED GOT
expect() {
    if [ "$2" = "$3" ]; then
        echo "ok: $1"
    else
        echo "FAILED: $1: wanted '$2', got '$3'"
        failed=1
    fi
}

# ---- a client that sends one line and waits gets its answer
coproc CONSOLE { "$program"; }
answers=''
for request in 'B 0' 'W 1 0 7' 'R 1 0' 'E 1'; do
    echo "$request" >&"${CONSOLE[1]}"
    if IFS= read -r -t 10 answer <&"${CONSOLE[0]}"; then answers="$answers$answer;"; else answers="${answers}none;"; fi
done
exec {CONSOLE[1]}>&-
wait "$CONSOLE_PID"
expect 'each line is answered before the next is sent' 'T 1 1 1;K;V 7;E 1 1;' "$answers"

# ---- answers are batched while input is at hand: far fewer writes than lines
awk 'BEGIN { for (i = 0; i < 100000; i++) print "G 0" }' >"$work/many"
if command -v strace >/dev/null; then
    strace -f -c -e trace=write -o "$work/calls" "$program" <"$work/many" >/dev/null
    writes=$(awk '$NF == "write" { print $4 }' "$work/calls")
    expect 'fewer than 100 writes for 100,000 lines' yes "$([ "${writes:-0}" -gt 0 ] && [ "$writes" -lt 100 ] && echo yes || echo "$writes writes")"
else
    echo "skipped: no strace to count the writes"
fi
expect '100,000 answers to 100,000 lines' 100000 "$("$program" <"$work/many" | grep -c '^N 4 0$')"

# ---- memory stays bounded: a line of 300 MB, within 64 MiB of address space
long_line() { printf 'B '; head -c 300000000 /dev/zero | tr '\0' '1'; printf '\nB 0\n'; }
expect 'a line of 300 MB in 64 MiB' 'N 10 12;T 1 1 1;' "$(long_line | (ulimit -v 65536 && exec "$program") | tr '\n' ';')"

# ---- an error of reading or of writing ends it with status 1
"$program" </ >/dev/null 2>&1
expect 'an error of reading (standard input is a folder)' 1 $?
echo 'B 0' | "$program" >/dev/full 2>/dev/null
expect 'an error of writing (the device is full)' 1 $?

# ---- a closed pipe ends it too: the toolchain's programs do not heed SIGPIPE, so the write fails
yes 'B 9' | head -n 2000000 | { "$program" 2>/dev/null; echo $? >"$work/status"; } | head -n 1 >/dev/null
expect 'a closed pipe' 1 "$(cat "$work/status")"

# ---- the last line, with and without byte 10, and an empty input
expect 'a last line without byte 10 counts' 'T 1 1 1;' "$(printf 'B 0' | "$program" | tr '\n' ';')"
expect 'an empty last line does not' 'T 1 1 1;' "$(printf 'B 0\n' | "$program" | tr '\n' ';')"
expect 'an empty line counts' 'N 10 0;' "$(printf '\n' | "$program" | tr '\n' ';')"
expect 'an empty input has no answer' '' "$("$program" </dev/null)"

exit "$failed"
