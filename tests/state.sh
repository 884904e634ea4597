#!/usr/bin/env bash
# Runs the program on scripts at the limits of a state. What is expected was worked out by hand from the rules.
set -uo pipefail
program=crates/member/out/member
bad=0 scripts=0

# expect NAME SCRIPT OUTPUT: the last lines of the program's output, as many as OUTPUT has.
expect() {
    local name=$1 script=$2 output=$3 got
    got=$(printf '%s\n' "$script" | "$program" 2>/dev/null | tail -n "$(wc -l <<<"$output")")
    scripts=$((scripts + 1))
    if [[ $got != "$output" ]]; then
        printf '%s: %.300s, in place of %.300s\n' "$name" "$got" "$output" >&2
        bad=1
    fi
}

# each LINE FROM TO: the line once for each number, in place of its #.
each() {
    local i
    for ((i = $2; i <= $3; i++)); do
        printf '%s\n' "${1//\#/$i}"
    done
}

# fetches CAUSE FROM TO: the fetches of the gaps from one view to another, where each view is a term.
fetches() {
    local i
    for ((i = $2; i <= $3; i++)); do
        printf ', fetch %s %s missing_nullification' "$i" "$1"
    done
}

# nullified EPOCH VIEW SEATS: the hex digits of a nullification; SEATS has 16 of them.
nullified() {
    printf '02%014d%016x%016x%080d%s%048d' 0 "$1" "$2" 0 "$3" 0
}

last=4611686018427387904 past=4611686018427387905 max=18446744073709551615

expect 'a run with terms of four views' 'member 4 7 4 3
replayed
updated nullification 10
updated finalization 6
updated nullification 7
certified fail notarization 14
certified pass notarization 9
settled 8 nullification
settled 9 nullification
produce 13
state' 'ok
ok settled nullification 10 12, fetch 1 10 missing_nullification, fetch 5 10 missing_nullification, fetch 9 10 missing_nullification
ok finalized 6, raised 6, fetch 7 6 missing_nullification, fetch 9 6 missing_nullification
ok settled nullification 7 8
ok settled notarization 14 14, fetch 14 14 certification_failed
ok settled notarization 9 9, raised 9
yes
no
none
floor 9 current 10 cursor 10 finalized 6 replay no nullifications 7,10 pending - certified 9 failed 14'

# Gaps.
one='member 1 0 4 3'
expect '128 gaps are allowed' "$one
replayed
updated notarization 129" "ok settled notarization 129 129$(fetches 129 1 128)"
expect '129 gaps are not' "$one
replayed
updated notarization 130
updated nullification 130
updated nullification $last
state" 'refused 7 state
refused 7 state
refused 7 state
floor 0 current 0 cursor 1 finalized 0 replay no nullifications - pending - certified - failed -'
expect 'a finalization closes its gaps' "$one
replayed
updated finalization 130" 'ok finalized 130, raised 130'
expect 'the marker counts gaps too' "$one
updated notarization 130
replayed
updated finalization 1
replayed" "refused 7 state
ok finalized 1, raised 1
ok$(fetches 130 2 129 | cut -c2-)"
expect 'a gap that is covered is none' "$one
replayed
updated nullification 1
updated notarization 129
updated notarization 130" "ok settled notarization 129 129$(fetches 129 2 128)
ok settled notarization 130 130, fetch 129 130 missing_nullification"

# Tables: 127 rows, 128, and one more.
expect 'nullifications' "$one
$(each 'updated nullification #' 2 128)
updated nullification 129
updated nullification 1
updated nullification 129
updated finalization 2
updated nullification 130
updated nullification 131" 'ok settled nullification 129 129
refused 6 state
ok settled nullification 129 129
ok finalized 2, raised 2
ok settled nullification 130 130
refused 6 state'
expect 'notarizations that wait' "$one
$(each 'updated notarization #' 2 128)
updated notarization 129
updated notarization 1
updated notarization 129
certified fail notarization 129
updated notarization 1" 'ok settled notarization 129 129
refused 6 state
ok settled notarization 129 129
ok settled notarization 129 129
ok settled notarization 1 1'
expect 'notarizations that passed' "$one
$(each 'certified pass notarization #' 2 128)
certified pass notarization 129
certified pass notarization 1
certified pass notarization 129
updated notarization 129" 'ok settled notarization 129 129, raised 129
refused 6 state
ok settled notarization 129 129
ok settled notarization 129 129'
expect 'views that failed' "$one
$(each 'certified fail notarization #' 2 128)
certified fail notarization 129
certified fail notarization 1
certified fail notarization 129
certified pass notarization 1" 'ok settled notarization 129 129
refused 6 state
ok settled notarization 129 129
ok settled notarization 1 1, raised 1'

# The order of the tests.
expect 'a view too high, then a full table, then gaps' "$one
$(each 'updated nullification #' 2 129)
replayed
updated bytes 02
updated nullification $past
updated nullification 1000
updated notarization 1000" 'ok fetch 1 129 missing_nullification
refused 1 record
refused 5 state
refused 6 state
refused 7 state'
expect 'bytes, then the kind, then the view, then the table' "$one
$(each 'certified pass notarization #' 2 129)
certified pass bytes -
certified pass nullification 5 parent=5
certified fail finalization $past
certified pass nullification 130
certified pass notarization $past
certified pass notarization 130" 'refused 1 record
refused 4 record
refused 8 state
refused 8 state
refused 5 state
refused 6 state'

# The lowest and the highest views.
expect 'view 0' 'member 4 0 4 3
settled 0 nullification
settled 0 notarization
settled 1 notarization
produce 0
updated nullification 0
updated notarization 0
updated finalization 0
certified pass notarization 0
certified fail notarization 0
state' 'yes
yes
no
none
ok
ok
ok finalized 0
ok settled notarization 0 0
ok settled notarization 0 0
floor 0 current 0 cursor 0 finalized 0 replay yes nullifications - pending - certified - failed -'
expect 'the last view that is recorded' "$one
updated nullification $last
updated nullification $past
certified pass notarization $last
certified pass notarization $max
settled $last nullification
settled $max nullification
produce $max
updated finalization $last
replayed
settled $past notarization" "ok settled nullification $last $last
refused 5 state
ok settled notarization $last $last, raised $last
refused 5 state
yes
no
none
ok finalized $last
ok
no"
# 4611686022722355199 is 1073741825 times 4294967295.
expect 'the longest terms' "member 4294967295 0 1 1
replayed
updated nullification 7
updated nullification $last
settled 4294967295 nullification
settled 4294967296 nullification
settled 4611686022722355199 nullification
settled 4611686022722355200 nullification" "ok settled nullification 7 4294967295, fetch 1 7 missing_nullification
refused 7 state
yes
no
no
no"
expect 'the end of the longest term' "member 4294967295 0 1 1
updated nullification $last
updated nullification $past" "ok settled nullification $last $(((last / 4294967295 + 1) * 4294967295))
refused 5 state"

# Verdicts before and after, and what they leave.
expect 'pass, fail, pass' 'member 4 0 4 3
certified pass notarization 3
certified fail notarization 3
state
settled 1 notarization
produce 1
certified pass notarization 3 parent=2
state' 'floor 3 current 0 cursor 0 finalized 0 replay yes nullifications - pending - certified - failed 3
no
none
ok settled notarization 3 3
floor 3 current 0 cursor 0 finalized 0 replay yes nullifications - pending - certified 3 failed 3'
expect 'a second marker' 'member 4 0 4 3
replayed
certified fail notarization 2
replayed
updated nullification 1
replayed' 'ok settled notarization 2 2, fetch 2 2 certification_failed
ok fetch 2 2 certification_failed
ok settled nullification 1 4
ok'

# Members.
expect 'no member yet' 'replayed
member 0 0 4 3
updated nullification 1
member 4 0 4 3
replayed' 'line 1: error: no member yet
refused 9 terms
line 3: error: no member yet
member
ok'
expect 'a fresh member, and a refused one' 'member 4 5 4 3
updated nullification 1
member 4 6 4 5
member 4 6 0 0
member 4 6 65 1
member 4 6 4 0
state
produce 1
member 1 6 64 64
state
updated nullification 1
produce 1' "refused 15 verifier
refused 15 verifier
refused 15 verifier
refused 15 verifier
floor 0 current 1 cursor 0 finalized 0 replay yes nullifications 1 pending - certified - failed -
nullification 1 $(nullified 5 1 0000000000000007)
member
floor 0 current 0 cursor 0 finalized 0 replay yes nullifications - pending - certified - failed -
ok settled nullification 1 1
nullification 1 $(nullified 6 1 ffffffffffffffff)"

((bad == 0)) && echo "tests/state.sh: $scripts scripts, all as expected"
exit "$bad"
