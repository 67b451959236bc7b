#!/bin/sh
# Tests of the built archive from outside: the lockstep with an independent model, the Rust package, a C program, and how often a
# call reads each record, for which an emulator traces it. The archive is for x86-64. On another machine all of them are built for
# that too and run by the emulator, if what this takes is there.
cd "$(dirname "$0")/.." || exit 1
passed=0
failed=0
work=$(mktemp -d) || exit 1
trap 'rm -rf "$work"' EXIT

# A rustc that has the standard library of the target.
rustc_for() {
    for rustc in rustc /usr/bin/rustc; do
        library=$($rustc --print target-libdir --target "$1" 2>/dev/null) && [ -d "$library" ] && echo $rustc && return
    done
    return 1
}

# For another machine: what builds programs for x86-64 and what runs them; `missing` names a thing that is not there.
cross() {
    cc=x86_64-linux-gnu-gcc
    emulator=qemu-x86_64
    CARGO_BUILD_TARGET=x86_64-unknown-linux-gnu
    RUSTC=$(rustc_for $CARGO_BUILD_TARGET) || missing="rustc for $CARGO_BUILD_TARGET"
    RUSTDOC=${RUSTC%rustc}rustdoc
    for tool in $cc $emulator; do
        command -v $tool >/dev/null || missing=$tool
    done
    CARGO_TARGET_X86_64_UNKNOWN_LINUX_GNU_LINKER=$cc
    CARGO_TARGET_X86_64_UNKNOWN_LINUX_GNU_RUNNER=$emulator
    export CARGO_BUILD_TARGET CARGO_TARGET_X86_64_UNKNOWN_LINUX_GNU_LINKER CARGO_TARGET_X86_64_UNKNOWN_LINUX_GNU_RUNNER
    export RUSTC RUSTDOC
}

# keep NAME COMMAND: runs it, and keeps its output and its status.
keep() {
    name=$1
    shift
    "$@" >"$work/$name" 2>&1
    echo $? >"$work/$name.status"
}

# Adds the counts of what was kept: those of its last line, or of cargo's lines.
count() {
    sums=$(awk '
        /^test result:/ { p += $4; f += $6 }
        /^[0-9]+ passed, [0-9]+ failed$/ { p += $1; f += $3 }
        END { print p + 0, f + 0 }' "$work/$1")
    p=${sums% *}
    f=${sums#* }
    { [ "$(cat "$work/$1.status")" -eq 0 ] && [ "$p" -gt 0 ]; } || [ "$f" -gt 0 ] || f=1
    [ "$f" -eq 0 ] || tail -n 40 "$work/$1"
    passed=$((passed + p))
    failed=$((failed + f))
    echo "$1: $p passed, $f failed."
}

lockstep() {
    cargo run --offline --release --manifest-path rust/lockstep/Cargo.toml --bin lockstep -- "$@"
}

# The C program prints what is expected of it.
c_program() {
    $cc -std=c99 -Wall -Wextra -Werror -I include tests/c/example.c crates/ssaldorip/out/libssaldorip.a -o "$work/example" &&
        $emulator "$work/example" >"$work/out" && diff "$work/out" tests/c/expected.txt && echo '1 passed, 0 failed'
}

cc=cc
emulator=
missing=
[ "$(uname -m)" = x86_64 ] || cross

if ! (cd crates/ssaldorip && rt lib) >"$work/archive" 2>&1; then
    tail -n 20 "$work/archive"
    failed=1
elif [ -n "$missing" ]; then
    echo "Not run: the lockstep, the Rust tests and the C program, since this $(uname -m) machine has no $missing."
else
    SSALDORIP_ARCHIVE=$PWD/crates/ssaldorip/out
    CARGO_TARGET_DIR=$PWD/target/rust
    export SSALDORIP_ARCHIVE CARGO_TARGET_DIR
    # Two at a time, one half of the lockstep each: it takes longest. While one cargo builds, the other waits.
    keep lockstep_hostile lockstep --steps 0 &
    keep lockstep_clusters lockstep --hostile 0
    keep lockstep_examples cargo test --offline --release --manifest-path rust/lockstep/Cargo.toml
    keep package cargo test --offline --release --manifest-path rust/Cargo.toml
    keep c_program c_program
    names='lockstep_hostile lockstep_clusters lockstep_examples package c_program'
    if command -v qemu-x86_64 >/dev/null; then
        keep passes sh tests/passes/run.sh crates/ssaldorip/out/libssaldorip.a $cc qemu-x86_64
        names="$names passes"
    else
        echo 'Not run: how often a call reads each record, since this machine has no qemu-x86_64 to trace it.'
    fi
    wait
    for name in $names; do
        count $name
    done
fi

echo "$passed passed, $failed failed"
[ "$failed" -eq 0 ]
