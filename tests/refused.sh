#!/bin/sh
# Each wrong program is refused where it says, by a fact. rt ci tries the edits, and keeps no log of what the check says of one; so
# each is tried here once more, on a copy of the crates (.ci/edited), two at a time.
# A wrong program is an edit with a line 'at: PLACE NAME': in the log an error stands at NAME in a file of proofs/PLACE/, or in
# proofs/PLACE.antt, or the function PLACE, which needs no answer there, is left unproved at NAME. An error that only says that the
# proof file does not suit the code any more, or that follows from another, is none. The edits of crates/CRATE/wrong are tried in
# groups, which are exactly their members (.ci/group); an edit of definitions stands alone in must-fail/.
cd "$(dirname "$0")/.." || exit 1
passed=0
failed=0

pass() { passed=$((passed + 1)); }
fail() {
    failed=$((failed + 1))
    echo "$*"
}

# Whether a log has such an error.
told() { # LOG PLACE NAME
    grep -F -e "/proofs/$2/Answers.antt:" -e "/proofs/$2/Invariants.antt:" -e "/proofs/$2/Proof.antt:" -e "/proofs/$2.antt:" "$1" | grep -F ": error: \`$3\`" |
        grep -vE 'was not admitted|is not in scope|has no field|that can be named from here|expected type `[^`]*\.(Goals|Given|Lts|Tie)\.' | grep -q . ||
        grep -F "::$(echo "$2" | sed 's|/|::|g'): no proof: " "$1" | grep -F "did not prove" | grep -qF "\`$3\`"
}

# Where the log of an edit stands.
log_of() { # EDIT
    echo "$work/logs/$(echo "$1" | tr / _)"
}

# Tries every second edit of a list, from the first or from the second on, on a copy of its own.
try_half() { # LIST FIRST
    mkdir "$work/copy$2"
    tar -cf - --exclude=out crates.txt crates | tar -xf - -C "$work/copy$2"
    awk -v first="$2" 'NR % 2 == first % 2' "$1" | while IFS= read -r e; do
        c=${e#crates/}
        .ci/edited "$work/copy$2" "${c%%/*}" "$e" >"$(log_of "$e")" 2>&1 </dev/null
    done
}

refused() { # EDIT LOG
    at=$(sed -n 's/^at: //p' "$1")
    if [ -z "$at" ]; then
        fail "$1: it does not say where it is refused"
    elif ! grep -q '^logic=not-proved' "$2"; then
        fail "$1: it was not tried: $(tail -n 1 "$2")"
    elif told "$2" "${at% *}" "${at##* }"; then
        pass
    else
        fail "$1: no fact is refused at $at"
    fi
}

work=$(mktemp -d) || exit 1
trap 'rm -rf "$work"' EXIT
wanted=$work/wanted
mkdir "$work/logs"

.ci/group --groups | while read -r c k; do echo "crates/$c/must-fail/wrong_$k.edit"; done >"$wanted"
ls crates/*/must-fail/*.edit >"$work/edits"
try_half "$work/edits" 1 &
try_half "$work/edits" 2
wait

while IFS= read -r e; do
    case $(basename "$e" .edit) in
    wrong_*)
        c=${e#crates/}
        k=${e##*wrong_}
        if ! grep -qxF "$e" "$wanted"; then
            fail "$e: it has no members"
        elif .ci/group "${c%%/*}" "${k%.edit}" | cmp -s - "$e"; then
            pass
        else
            fail "$e: it is not its members (.ci/group --write)"
        fi
        for m in $(sed -n 's/^# wrong\///p' "$e"); do
            refused "crates/${c%%/*}/wrong/$m" "$(log_of "$e")"
        done
        ;;
    *) refused "$e" "$(log_of "$e")" ;;
    esac
done <"$work/edits"
while IFS= read -r e; do
    [ -f "$e" ] || fail "$e: it is not there (.ci/group --write)"
done <"$wanted"

echo "$passed passed, $failed failed"
[ "$failed" -eq 0 ]
