# What a call reads of the history's records. It takes the program's symbols as `nm` prints them, then what trace.c prints, and counts
# for each function: the loads from the history, and the visits to a record (a visit ends with a load from another record). Fails if
# the visits are fewer than `held` or more than `most`, or the trace does not end at the second mark.

function hex(s,   i, x) {
    x = 0
    for (i = 1; i <= length(s); i++) x = 16 * x + index("0123456789abcdef", substr(s, i, 1)) - 1
    return x
}

# The function that an instruction is in.
function at(address,   low, high, mid) {
    low = 1
    high = functions
    while (low < high) {
        mid = int((low + high + 1) / 2)
        if (place[mid] <= address) low = mid; else high = mid - 1
    }
    return name[low]
}

$2 ~ /^[Tt]$/ { place[++functions] = hex($1); name[functions] = $3 }
$3 == "history" { first = hex($1) }
$3 == "mark" { mark = hex($1) }
$1 !~ /^[ILS]$/ { next }

{ address = hex($2) }
$1 == "S" && address == mark { marks++ }
$1 == "I" { here = address; instructions++ }
$1 == "L" && first <= address && address < first + 28 * 256 {
    f = at(here)
    record = int((address - first) / 28)
    loads[f]++
    if (f != was || record != last) { visits[f]++; all++ }
    was = f
    last = record
}

END {
    for (f in loads) printf "  %s: %d loads, %d visits\n", f, loads[f], visits[f]
    printf "  %d visits in all, %d instructions\n", all, instructions
    exit marks != 2 || all < held || most < all
}
