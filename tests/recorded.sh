#!/usr/bin/env bash
# Runs the program recorded on files that differ from what is answered here, or have nothing to compare.
set -uo pipefail
# The last command of a pipe runs in this shell, so that it can count.
shopt -s lastpipe
program=crates/recorded/out/recorded
bad=0 files=0

# expect NAME STATUS OUTPUT: what the program does with standard input.
expect() {
    local name=$1 status=$2 output=$3 got gave
    got=$("$program" 2>/dev/null)
    gave=$?
    files=$((files + 1))
    if [[ $gave != "$status" || $got != "$output" ]]; then
        printf '%s: status %s and %.200s, in place of %s and %s\n' "$name" "$gave" "$got" "$status" "$output" >&2
        bad=1
    fi
}

# same N: what is printed where N commands were answered as recorded.
same() {
    printf 'commands %s different 0' "$1"
}

term='start 5 end 8 next 9'
printf '' | expect 'an empty file' 1 "$(same 0)"
printf 'a heading\n\n>term 4 5\n' | expect 'a heading alone' 1 "$(same 0)"
printf '> term 4 5\n%s\n' "$term" | expect 'one command' 0 "$(same 1)"
printf 'a heading\n# > \n> term 4 5\n%s\n> covers 4 6 8\nyes\n' "$term" | expect 'two behind a heading' 0 "$(same 2)"
printf '> \n> # term 4 5\n>  term 4 5 \n%s\n' "$term" | expect 'commands without a word' 0 "$(same 3)"

# Each of these differs, and the first line of what is answered here is told.
printf 'a heading\n> term 4 5\nstart 5\n' |
    expect 'another answer' 1 "line 2: here $term"$'\n''commands 1 different 1'
printf '> term 4 5\n> term 4 5\n%s\n' "$term" |
    expect 'an answer that is missing' 1 "line 1: here $term"$'\n''commands 2 different 1'
printf '> term 4 5\n%s\n\n> term 4 5\n%s\n' "$term" "$term" |
    expect 'an empty line too many' 1 "line 1: here $term"$'\n''commands 2 different 1'
printf '> term 4 5\n%s' "$term" |
    expect 'no byte 10 at the end' 1 "line 1: here $term"$'\n''commands 1 different 1'
printf '> term 4 5\n%s\n>yes\n> \nok\n' "$term" |
    expect 'a mark without its space' 1 "line 1: here $term"$'\n''line 4: here '$'\n''commands 2 different 2'

# A member is kept from one command to the next, and a drain has several lines.
member=$'> member 4 7 4 3\nmember\n> offer replayed\nwaiting 0 1\n> offer updated nullification 2\nwaiting 0 2\n> drain 2\ndrained 2\n'
printf '%s  replayed: ok\n  updated nullification 2: ok settled nullification 2 4, fetch 1 2 missing_nullification\n> asks\n1 background\n' "$member" |
    expect 'a drain' 0 "$(same 5)"
printf '%s  replayed: ok\n  updated nullification 2: ok\n> asks\n1 background\n' "$member" |
    expect 'another last line of a drain' 1 $'line 7: here drained 2\ncommands 5 different 1'

# An error line is no answer to rely on, even where the file has the same one.
printf 'a heading\n> asks\nline 2: error: no member yet\n' | expect 'an error line' 1 "$(same 1)"

# What stands in a buffer until the end, and then cannot be written, is told too.
if [[ -c /dev/full ]] && printf '> term 4 5\n%s\n' "$term" | "$program" >/dev/full 2>/dev/null; then
    echo 'a full device: status 0' >&2
    bad=1
fi

((bad == 0)) && echo "tests/recorded.sh: $files files, all as expected"
exit "$bad"
