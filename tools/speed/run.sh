#!/bin/sh
# Instructions per call of the C archive, inside the call and what it calls (callgrind --toggle-collect): 120 calls less 20, by 100.
#   run.sh ARCHIVE [INCLUDE]
here=$(cd "$(dirname "$0")" && pwd)
archive=$1
include=${2:-$here/../../include}
work=$(mktemp -d) || exit 1
trap 'rm -rf "$work"' EXIT
gcc -O2 -static -no-pie -I "$include" "$here/calls.c" "$archive" -o "$work/calls" || exit 1
count() { # CALL HELD KEPT TIMES
    f=$1
    case $f in update*) f=update ;; read*) f=read ;; esac
    valgrind --tool=callgrind --callgrind-out-file=/dev/null --toggle-collect=ssaldorip_$f "$work/calls" "$1" "$2" "$3" "$4" 2>"$work/err" || { cat "$work/err" >&2; return 1; }
    awk '/Collected/ { print $4 }' "$work/err"
}
line() { # WORDS CALL HELD KEPT
    a=$(count "$2" "$3" "$4" 20) && b=$(count "$2" "$3" "$4" 120) && printf '%-52s %8d\n' "$1" $(((b - a) / 100))
}
line "judge, 256 held, checkpoint nothing" judge 256 0
line "judge, 256 held, checkpoint half" judge 256 128
line "judge, 256 held, checkpoint all" judge 256 256
line "judge, 0 held" judge 0 0
line "update of 256, none new, checkpoint nothing" update 256 0
line "update of 256, none new, checkpoint all" update 256 256
line "update of 256, 224 new (32 held, nothing)" update_new 32 0
line "read, 256 held, checkpoint nothing" read 256 0
line "read, 256 held, checkpoint all" read 256 256
line "read, 256 held, all in one cell" read_one_cell 256 256
line "write, 255 held, checkpoint nothing" write 255 0
line "write, 255 held, checkpoint all" write 255 255
line "recover of 256 (checkpoint all)" recover 256 256
line "status, 256 held, all" status 256 256
line "message, 256 held, all" message 256 256
line "look_up, last of 256 in the checkpoint" look_up 256 256
line "message_check of 256" message_check 256 256
line "message_write of 256" message_write 256 256
line "session_raise" session_raise 256 256
line "session_asks (both)" session_asks 256 256
line "start" start 0 0
line "cut, 256 held, all" cut 256 256
