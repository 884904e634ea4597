#!/usr/bin/env bash
# Runs the program on scripts whose status or size no stored output can show.
set -uo pipefail
# The last command of a pipe runs in this shell, so that it can count.
shopt -s lastpipe
program=crates/member/out/member
bad=0

# expect NAME STATUS OUTPUT: what the program does with standard input.
expect() {
    local name=$1 status=$2 output=$3 got gave
    got=$("$program" 2>/dev/null)
    gave=$?
    if [[ $gave != "$status" || $got != "$output" ]]; then
        printf '%s: status %s and %.200s, in place of %s and %s\n' "$name" "$gave" "$got" "$status" "$output" >&2
        bad=1
    fi
}

term='start 5 end 8 next 9'
printf '' | expect 'an empty script' 0 ''
printf '\n\n# only a comment' | expect 'no command' 0 ''
printf 'term 4 5' | expect 'no newline at the end' 0 "$term"
printf 'term 0 5\n' | expect 'a refusal' 0 'refused 9 terms'
printf 'nothing\n\nterm 4 5\n' | expect 'an error line' 1 "line 1: error: unknown command"$'\n'"$term"
printf 'term 4 5 # \377\000\n' | expect 'any bytes in a comment' 0 "$term"
printf 'term 4 5\000\n' | expect 'a zero byte in a word' 1 'line 1: error: not a decimal number'

# million BYTE: a megabyte of one byte.
million() {
    head -c 1000000 /dev/zero | tr '\0' "$1"
}

# A megabyte in one line: a word, spaces, digits, a comment, hex digits.
{ million x; } | expect 'a long word' 1 'line 1: error: unknown command'
{ million ' '; echo 'term 4 5'; } | expect 'many spaces' 0 "$term"
{ printf 'term 4 '; million 1; } | expect 'a long number' 1 'line 1: error: number out of range'
{ printf 'term 4 5 #'; million x; } | expect 'a long comment' 0 "$term"
{ printf 'read bytes '; million 0; } | expect 'many bytes' 0 'refused 1 record'
{ printf 'read bytes '; million 0; echo 0; } | expect 'many digits' 1 'line 1: error: odd number of hex digits'

# A longer script: what waits after each offer, and what comes out. Its last part has lines that are no command.
expect 'the queue' 1 "$(<tests/member/queue.out)" <tests/member/queue.in

# What stands in a buffer until the end, and then cannot be written, is told too.
if [[ -c /dev/full ]] && printf 'term 4 5\n' | "$program" >/dev/full 2>/dev/null; then
    echo 'a full device: status 0' >&2
    bad=1
fi

((bad == 0)) && echo 'tests/member.sh: 15 scripts, all as expected'
exit "$bad"
