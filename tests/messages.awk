# Makes messages as decimal bytes, one to a line: most are right, in others a byte or the length is not. -v seed= -v lines=
function any(k) { return int(rand() * k) }
function put16(x) { s = s " " x % 256 " " int(x / 256) }
function put32(x) { put16(x % 65536); put16(int(x / 65536)) }
function edge(k) { return any(4) == 0 ? k : any(k + 1) }
BEGIN {
    srand(seed)
    for (l = 0; l < lines; l++) {
        n = 1 + any(8)
        count = any(5)
        s = n " " any(n)
        put16(count)
        put16(8)
        put16(8 + 28 * count)
        for (k = 0; k < count; k++) {
            o = any(n)
            s = s " " o " " edge(63)
            put16(edge(1023))
            put32(any(3) == 0 ? 4294967295 : any(65536) * 65536 + any(65536))
            put32(any(65536) * 65536 + any(65536))
            for (j = 0; j < 8; j++) put16(j >= n ? 0 : j == o ? 1 + edge(255) : edge(256))
        }
        m = split(s, b, " ")
        way = any(6)
        if (way == 0) b[1 + any(m)] = any(256)
        if (way == 1) b[1 + any(8)] = any(10)
        if (way == 2) { i = 1 + any(m); b[i] = (b[i] + (any(2) == 0 ? 1 : 255)) % 256 }
        if (way == 3 && any(3) == 0) m = any(m + 1)
        if (way == 3 && any(3) == 0) { m++; b[m] = any(2) }
        line = ""
        for (i = 1; i <= m; i++) line = line (i > 1 ? " " : "") b[i]
        print line
    }
}
