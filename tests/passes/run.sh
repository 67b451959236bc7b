#!/bin/sh
# How often a call reads each record of the history: once to check it and V, and once more where it is compared, with the
# checkpoint or, backwards, with a log; a read looks for the winner beside that, and at it. An emulator traces passes.c by its plugin
# trace.c, and passes.awk counts.
#   run.sh ARCHIVE CC EMULATOR
here=$(dirname "$0")
archive=$1
cc=$2
emulator=$3
passed=0
failed=0
work=$(mktemp -d) || exit 1
trap 'rm -rf "$work"' EXIT

$cc -std=c99 -Wall -Wextra -Werror -O2 -static -no-pie -I "$here/../../include" "$here/passes.c" "$archive" -o "$work/passes" || exit 1
nm "$work/passes" | sort >"$work/symbols"
mark=$(awk '$3 == "mark" { print $1 }' "$work/symbols")
cc -O2 -Wall -shared -fPIC "$here/trace.c" -o "$work/trace.so" || exit 1

trace() { # CALL HELD CHECKPOINT WRITERS
    $emulator -plugin "$work/trace.so,mark=$mark" "$work/passes" "$@" >"$work/trace"
}

# A call that is not refused, and visits records so often at the most.
visits() { # MOST CALL HELD CHECKPOINT WRITERS
    most=$1
    shift
    echo "$1 at $2 held, $3 of them in the checkpoint, the writes of $4 servers of 8:"
    if trace "$@" && awk -v held="$2" -v most="$most" -f "$here/passes.awk" "$work/symbols" "$work/trace"; then
        passed=$((passed + 1))
    else
        failed=$((failed + 1))
        echo "  It is refused, or the visits are not $2 to $most."
    fi
}

visits 0 judge 0 0 8
visits 16 judge 8 0 8
visits 256 judge 256 0 7
for kept in 0 128 256; do
    visits 512 judge 256 $kept 8
    visits 769 read 256 $kept 8
    visits 512 update 256 $kept 8
done
for kept in 0 127 255; do
    visits 510 write 255 $kept 8
done
echo "$passed passed, $failed failed"
[ "$failed" -eq 0 ]
