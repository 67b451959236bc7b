#!/bin/sh
# Runs the listing program on messages from outside: each is held to the lines written here, or to a second listing in awk.
cd "$(dirname "$0")" || exit 1
passed=0
failed=0
work=$(mktemp -d) || exit 1
trap 'rm -rf "$work"' EXIT

# The program, proved, built and run once on its example, which leaves it there.
(cd ../crates/listing && rt run <stdin) >/dev/null 2>"$work/built" || { tail -n 20 "$work/built"; echo '0 passed, 1 failed'; exit 1; }
listing() {
    ../crates/listing/out/listing
}

# Decimal numbers as bytes.
emit() {
    printf "$(echo "$*" | awk '{ for (i = 1; i <= NF; i++) printf "\\%03o", $i }')"
}

# expect NAME: what the program printed against what it should have.
expect() {
    if cmp -s "$work/got" "$work/want"; then
        passed=$((passed + 1))
    else
        failed=$((failed + 1))
        echo "FAIL: $1"
        diff "$work/got" "$work/want" | head -n 5
    fi
}

# prints NAME LINES: of the input at hand.
prints() {
    listing <"$work/in" >"$work/got"
    printf '%s\n' "$2" >"$work/want"
    expect "$1"
}

zeros() {
    awk -v k="$1" 'BEGIN { for (i = 0; i < k; i++) printf "0 " }'
}

example="2 0 1 0 8 0 36 0 0 5 44 1 7 0 0 0 132 3 0 0 1 0 $(zeros 14)"
lines='servers 2 sender 0 writes 1
0 1 5 300 7 900 1 0'

emit "$example" >"$work/in"
prints 'the example' "$lines"

{
    head -c 3 "$work/in"
    sleep 0.2
    tail -c +4 "$work/in" | head -c 20
    sleep 0.2
    tail -c +24 "$work/in"
} | listing >"$work/got"
printf '%s\n' "$lines" >"$work/want"
expect 'the example in three short reads from a pipe'

: >"$work/in"
prints 'an empty input' 'refused 6'
listing </dev/null >"$work/got"
expect 'no input'
listing <&- >"$work/got" 2>"$work/err"
expect 'a closed input'

emit 8 7 0 0 8 0 8 0 >"$work/in"
prints 'no writes' 'servers 8 sender 7 writes 0'

# wrong NAME BYTE VALUE: the example with one byte changed.
wrong() {
    emit "$(echo "$example" | awk -v i="$2" -v v="$3" '{ $i = v; print }')" >"$work/in"
    prints "$1" 'refused 6'
}
wrong 'no servers' 1 0
wrong 'nine servers' 1 9
wrong 'a sender not below N' 2 2
wrong 'a count too high' 3 2
wrong 'a count too low' 3 0
wrong 'a count of 257' 4 1
wrong 'another offset' 5 9
wrong 'an offset of 264' 6 1
wrong 'a length too high' 7 37
wrong 'a length too low' 7 35
wrong 'an origin not below N' 9 2
wrong 'phone 64' 10 64
wrong 'cell 1,024' 12 4
wrong 'number 0' 21 0
wrong 'position 257' 22 1
wrong 'a position past N' 25 1
emit "$example 0" >"$work/in"
prints 'a byte more' 'refused 6'
emit "${example% 0 }" >"$work/in"
prints 'a byte less' 'refused 6'

# 256 writes, the most; a byte more; and far more than the program reads.
awk 'BEGIN { s = "1 0 0 1 8 0 8 28"
    for (k = 1; k <= 256; k++) s = s " 0 63 255 3 255 255 255 255 255 255 255 255 " k % 256 " " int(k / 256) " 0 0 0 0 0 0 0 0 0 0 0 0 0 0"
    print s }' >"$work/most"
emit "$(cat "$work/most")" >"$work/in"
awk 'BEGIN { print "servers 1 sender 0 writes 256"
    for (k = 1; k <= 256; k++) print 0, k, 63, 1023, "4294967295 4294967295", k }' >"$work/want"
cat "$work/in" | listing >"$work/got"
expect '256 writes from a pipe'
{ cat "$work/in"; printf '\0'; } | listing >"$work/got"
echo 'refused 6' >"$work/want"
expect '7,177 bytes'
{ cat "$work/in"; head -c 100000 /dev/zero; } | listing >"$work/got" 2>"$work/err"
expect '107,176 bytes'

awk -v seed=20 -v lines=400 -f messages.awk >"$work/messages"
k=0
while IFS= read -r m; do
    k=$((k + 1))
    emit "$m" | listing >"$work/got"
    echo "$m" | awk -f listing.awk >"$work/want"
    expect "message $k: $m"
done <"$work/messages"

echo "$passed passed, $failed failed"
[ "$failed" -eq 0 ]
