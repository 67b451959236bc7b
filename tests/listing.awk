# A second listing, written from the requirements alone: reads a message as decimal bytes on one line, prints its listing.
function u16(i) { return b[i] + 256 * b[i + 1] }
function u32(i) { return u16(i) + 65536 * u16(i + 2) }
function right(k,    at, o, j, t) {
    at = 8 + 28 * k
    o = b[at]
    if (o >= n || b[at + 1] > 63 || u16(at + 2) > 1023) return 0
    for (j = 0; j < 8; j++) {
        t = u16(at + 12 + 2 * j)
        if (t > 256 || (j >= n && t != 0)) return 0
    }
    return u16(at + 12 + 2 * o) >= 1
}
function row(k,    at, j, s) {
    at = 8 + 28 * k
    s = sprintf("%d %d %d %d %.0f %.0f", b[at], u16(at + 12 + 2 * b[at]), b[at + 1], u16(at + 2), u32(at + 4), u32(at + 8))
    for (j = 0; j < n; j++) s = s " " u16(at + 12 + 2 * j)
    return s
}
{
    for (i = 0; i < NF; i++) b[i] = $(i + 1)
    n = NF > 0 ? b[0] : 0
    ok = NF >= 8 && n >= 1 && n <= 8 && b[1] < n && u16(4) == 8 && u16(6) == NF
    count = ok ? u16(2) : 0
    ok = ok && count <= 256 && NF == 8 + 28 * count
    for (k = 0; ok && k < count; k++) ok = right(k)
    if (!ok) {
        print "refused 6"
        next
    }
    print "servers " n " sender " b[1] " writes " count
    for (k = 0; k < count; k++) print row(k)
}
