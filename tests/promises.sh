#!/bin/sh
# Every name that docs/PROMISES.md cites is there: definitions, theorems, functions and wrong programs; and it cites every wrong program.
cd "$(dirname "$0")/.." || exit 1
page=docs/PROMISES.md
names=$(mktemp) || exit 1
trap 'rm -f "$names"' EXIT

# A definition, theorem, field or constructor in a file of this name.
defined() {
    find crates -path 'crates/*/out' -prune -o \( -path '*/specs/*' -o -path '*/proofs/*' \) -name "$1.antt" \
        -exec grep -lE "^ *(abbrev |unfoldable )?(pub )?(record |data )?$2( |\$)" {} + | grep -q .
}

# A function, constant or type of this name, or a module.
declared() {
    grep -qE "(fn|const|struct|enum|trait|type) $1\b" crates/*/src/*.rt crates/*/src/*/*.rt || ls crates/*/src/"$1".rt >/dev/null 2>&1
}

# A definition, theorem, field or constructor of any file; a function, type or variant; an exported function; a crate, a file, a tool.
named() {
    grep -rqE "^ *(abbrev |unfoldable )?(pub )?(record |data )?$1( |\$)" --include='*.antt' --exclude-dir=out crates || declared "$1" ||
        grep -rqE "^ *(pub )?$1[(,]" --include='*.rt' --exclude-dir=out crates || grep -qwF -- "$1" include/ssaldorip.h ||
        find crates docs tests rust include -path 'crates/*/out' -prune -o -name "$1*" -print | grep -q . || command -v "$1" >/dev/null
}

there() {
    case $1 in
    requires | ensures) ;; # words of the language
    wrong:*)
        edit=${1#wrong:}
        [ -e "crates/${edit%/*}/wrong/${edit#*/}.edit" ] || [ -e "crates/${edit%/*}/must-fail/${edit#*/}.edit" ]
        ;;
    *::*) declared "${1##*::}" ;;
    [A-Z]*.antt | */* | *.txt) [ -e "$1" ] || find crates -path 'crates/*/out' -prune -o -name "${1##*/}" -print | grep -q . ;;
    [A-Z]*.*) defined "${1%%.*}" "${1##*.}" ;;
    *) named "$1" ;;
    esac
}

# What stands between backticks, and wrong programs by crate and name.
grep -oE '`[A-Za-z][A-Za-z0-9_.:/-]*`' $page | tr -d '`' | sort -u >"$names"
grep -oE '\b(notes|rules|farm|refused|memory|calls|requests|server|text|ssaldorip)/[a-z][a-z0-9_]+' $page |
    grep -vE '/(specs|proofs|src|wrong)$' | sed 's|^|wrong:|' | sort -u >>"$names"

passed=0
failed=0
while read -r name; do
    if there "$name"; then
        passed=$((passed + 1))
    else
        failed=$((failed + 1))
        echo "not there: $name"
    fi
done <"$names"

for e in crates/*/wrong/*.edit crates/*/must-fail/*.edit; do
    crate=${e#crates/}
    edit=${crate%%/*}/$(basename "$e" .edit)
    case $edit in
    */wrong_*) continue ;;
    esac
    if grep -qw "$edit" $page; then
        passed=$((passed + 1))
    else
        failed=$((failed + 1))
        echo "not cited: $edit"
    fi
done

echo "$passed passed, $failed failed"
[ "$failed" -eq 0 ]
