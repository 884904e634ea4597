#!/usr/bin/env bash
# Runs the program on scripts of requests and deliveries, each on both boards. What is expected was worked out by hand
# from the rules.
set -uo pipefail
program=crates/member/out/member
bad=0 scripts=0

# expect NAME SCRIPT OUTPUT: on each board, the last lines of the program's output, as many as OUTPUT has.
expect() {
    local name=$1 script=$2 output=$3 board got
    for board in rows list; do
        got=$(printf '%s\n' "${script//BOARD/$board}" | "$program" 2>/dev/null | tail -n "$(wc -l <<<"$output")")
        scripts=$((scripts + 1))
        if [[ $got != "$output" ]]; then
            printf '%s, %s: %.500s, in place of %.500s\n' "$name" "$board" "$got" "$output" >&2
            bad=1
        fi
    done
}

# each LINE FROM TO: the line once for each number, in place of its #.
each() {
    local i
    for ((i = $2; i <= $3; i++)); do
        printf '%s\n' "${1//\#/$i}"
    done
}

# open FROM TO: the background asks from one view to another, as a script shows them.
open() {
    each '# background' "$1" "$2" | paste -sd , - | sed 's/,/, /g'
}

# many N: N background asks as a delivery names them.
many() {
    each 'background' 1 "$1" | paste -sd , -
}

last=4611686018427387904 past=4611686018427387905 max=18446744073709551615 below=18446744073709551614
member='member 4 7 4 3 BOARD'

expect 'gaps are asked for, and what settles them ends the asks' "$member
asks
replayed
updated nullification 10
asks
updated finalization 6
asks
certified fail notarization 14
asks
updated nullification 13
asks
certified pass notarization 9
asks" 'none
ok
ok settled nullification 10 12, fetch 1 10 missing_nullification, fetch 5 10 missing_nullification, fetch 9 10 missing_nullification
1 background, 5 background, 9 background
ok finalized 6, raised 6, fetch 7 6 missing_nullification, fetch 9 6 missing_nullification
7 background, 9 background
ok settled notarization 14 14, fetch 14 14 certification_failed
7 background, 9 background, 14 background
ok settled nullification 13 16
7 background, 9 background
ok settled notarization 9 9, raised 9
none'
expect 'the marker opens the asks of a replay' "$member
updated nullification 10
certified fail notarization 14
asks
replayed
asks" 'none
ok fetch 1 10 missing_nullification, fetch 5 10 missing_nullification, fetch 9 10 missing_nullification, fetch 14 14 certification_failed
1 background, 5 background, 9 background, 14 background'

# Requests.
expect 'what is asked, and of whom' "$member
resolve 5 5 notarization
resolve 5 6 notarization
resolve 5 4 notarization 2
resolve $max $below nullification 4294967295
resolve $max $max nullification
resolve 9 0 notarization
resolve 5 4 notarization 3
asks
resolve 5 4 notarization
asks
resolve 5 4 notarization 3
resolve 5 4 nullification 1
asks
updated notarization 4
asks
resolve 5 4 notarization
updated nullification 3
asks" "not needed
not needed
asked
asked
not needed
not needed
asked
4 notarization 2, $below nullification 4294967295
asked
4 notarization, $below nullification 4294967295
asked
asked
4 nullification 1, 4 notarization, $below nullification 4294967295
ok settled notarization 4 4
4 nullification 1, $below nullification 4294967295
not needed
ok settled nullification 3 4
$below nullification 4294967295"
expect 'a raised floor ends no request, a finalization does' "$member
resolve 9 2 notarization
resolve 9 2 nullification 1
certified pass notarization 3
asks
updated finalization 3
asks" 'ok settled notarization 3 3, raised 3
2 nullification 1, 2 notarization
ok finalized 3
none'
expect '64 requests are open' "$member
$(each 'resolve 1000 # notarization' 1 64)
resolve 1000 65 notarization
resolve 1000 64 nullification 1
resolve 1000 64 notarization 1
resolve 65 65 notarization
updated notarization 1
resolve 1000 65 nullification
resolve 1000 66 notarization" 'refused 11 board
refused 11 board
asked
not needed
ok settled notarization 1 1
asked
refused 11 board'
expect '63 requests are open' "$member
$(each 'resolve 1000 # nullification' 1 63)
resolve 1000 64 notarization
resolve 1000 65 notarization" 'asked
refused 11 board'
expect '256 background asks are open' "member 1 0 4 3 BOARD
replayed
updated notarization 129
$(each 'certified fail notarization #' 129 256)
asks
$(each 'resolve 1000 # nullification' 1 64)
updated finalization 255
asks" "$(open 1 256)
$(each asked 1 64)
ok finalized 255, raised 255
256 background"

# Deliveries.
expect 'what is worth nothing' "$member
deliver 0 nullification nullification 1
deliver 0 nullification bytes -
deliver 5 background bytes 00
deliver 5 background nullification 5 parent=1
deliver 5 background nullification 6
deliver 5 background nullification 4
deliver 5 background notarization 4
deliver 5 background finalization 4
deliver $max background nullification $max epoch=8
deliver 5 background nullification 5 epoch=8
deliver 5 background nullification 5 seats=3
deliver 5 background nullification 5 seats=23
state
asks" 'ignored not taken
ignored not taken
invalid not taken
invalid not taken
invalid not taken
invalid not taken
invalid not taken
invalid not taken
invalid not taken
invalid not taken
invalid not taken
invalid not taken
floor 0 current 0 cursor 0 finalized 0 replay yes nullifications - pending - certified - failed -
none'
expect 'what is worth something' "$member
resolve 9 5 notarization
deliver 5 notarization,background notarization 5 seats=14
deliver 5 notarization notarization 7
deliver 5 background notarization 8
resolve 9 8 nullification 3
deliver 8 background,nullification,background nullification 5
asks
deliver 5 background bytes 00
deliver 9 background,notarization finalization 10
deliver 9 notarization notarization 11" 'partial taken settled notarization 5 5
let go taken settled notarization 7 7
unresolved taken settled notarization 8 8
asked
complete taken settled nullification 5 8
none
ignored not taken
complete taken finalized 10, raised 10
ignored not taken'
expect 'a notarization that failed is not taken' "$member
certified fail notarization 6
deliver 5 background,notarization notarization 6
deliver 5 background,notarization notarization 7
deliver 6 notarization notarization 6
deliver 6 background,notarization nullification 5" 'unresolved not taken
unresolved taken settled notarization 7 7
let go not taken
complete taken settled nullification 5 8'
expect 'planning goes on after a delivery' "$member
replayed
resolve 20 12 nullification 2
deliver 12 nullification nullification 10
asks" 'complete taken settled nullification 10 12, fetch 1 10 missing_nullification, fetch 5 10 missing_nullification, fetch 9 10 missing_nullification
1 background, 5 background, 9 background'
expect '1 to 16 asks' "$member
deliver 5 - nullification 5
deliver 5 $(many 17) nullification 5
deliver 0 $(many 17) nullification 5
deliver 5 $(many 17) bytes 00
deliver 5 $(many 16) nullification 5" 'refused 10 resolver
refused 10 resolver
refused 10 resolver
refused 10 resolver
complete taken settled nullification 5 8'
expect 'a view too high' "$member
updated notarization 5
deliver 5 notarization finalization $past
deliver $past background nullification $past
deliver $max background,notarization finalization $max
deliver 5 background finalization $last
deliver $max background notarization $max" "refused 5 state
refused 5 state
refused 5 state
complete taken finalized $last, raised $last
refused 5 state"
expect 'a full table' "member 1 7 4 3 BOARD
$(each 'updated nullification #' 2 129)
deliver 1 background nullification 1
deliver 1 background notarization 130
deliver 1 background nullification 130
deliver 2 background,notarization nullification 2" 'refused 6 state
unresolved taken settled notarization 130 130
invalid not taken
unresolved taken settled nullification 2 2'
expect 'too many gaps' "member 1 7 4 3 BOARD
replayed
deliver 130 background nullification 130
asks
state
deliver 129 background nullification 129
asks" "refused 7 state
none
floor 0 current 0 cursor 1 finalized 0 replay no nullifications - pending - certified - failed -
complete taken settled nullification 129 129$(each ', fetch # 129 missing_nullification' 1 128 | tr -d '\n')
$(open 1 128)"

expect 'a fresh board, and a refused member' "$member
resolve 9 5 notarization
member 4 7 4 5 BOARD
asks
member 4 7 4 3
asks
asks 5
member 4 7 4 3 BOARDS" 'refused 15 verifier
5 notarization
member
none
line 7: error: a word too many
line 8: error: a word too many'

((bad == 0)) && echo "tests/resolver.sh: $scripts scripts, all as expected"
exit "$bad"
