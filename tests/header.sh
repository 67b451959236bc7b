#!/bin/sh
# The C header, the Rust declarations and the library's source say the same of every exported function: its name, its
# arguments by name, order and type, and its result; and the three are of one version. A buffer NAME of the source is a
# pointer NAME and a length NAME_len in the other two.
cd "$(dirname "$0")/.." || exit 1

awk '
    BEGIN {
        place["h"] = "include/ssaldorip.h"
        place["rs"] = "rust/src/sys.rs"
        place["rt"] = "crates/ssaldorip/src"
        # Types without blanks, and as sys.rs writes them.
        type["constuint8_t*"] = type["&[u8]"] = "*const u8"
        type["uint8_t*"] = type["&mut[u8]"] = "*mut u8"
        type["uint8_t"] = "u8"
        type["uint16_t"] = "u16"
        type["uint32_t"] = "u32"
        type["size_t"] = "usize"
    }

    # The text of each side, without comments and directives.
    { side = FILENAME; sub(/.*\./, "", side) }
    side == "h" && /^#define SSALDORIP_VERSION / { version["h"] = $3 }
    side == "h" && /^#/ { next }
    side != "h" { sub(/\/\/.*/, "") }
    side != "h" && /const VERSION: u32 = [0-9]+;/ { version[side] = $0; gsub(/.*= |;.*/, "", version[side]) }
    { text[side] = text[side] $0 " " }

    function without_comments(c,    from) {
        while (from = index(c, "/*")) c = substr(c, 1, from - 1) substr(c, from + index(substr(c, from), "*/") + 1)
        return c
    }
    function typed(t) {
        gsub(/ /, "", t)
        return t in type ? type[t] : t
    }
    # An argument as sys.rs writes it. A buffer of the source is two.
    function argument(side, a,    name, t) {
        gsub(/^ +| +$/, "", a)
        if (side == "rs" || a == "") return a
        name = t = a
        if (side == "h") {
            if (a == "void") return ""
            sub(/.*[ *]/, "", name)
            sub(/[a-z0-9_]+$/, "", t)
            return name ": " typed(t)
        }
        sub(/:.*/, "", name)
        sub(/[^:]*:/, "", t)
        return name ": " typed(t) (t ~ /\[/ ? ", " name "_len: usize" : "")
    }
    function arguments(side, list,    part, n, i, a, all) {
        n = split(list, part, ",")
        for (i = 1; i <= n; i++)
            if ((a = argument(side, part[i])) != "") all = all (all == "" ? "" : ", ") a
        return all
    }
    # Notes what a side says of a function: name, arguments and result.
    function note(side, name, list, result) {
        if (!(name in known)) { known[name] = 1; names[++count] = name }
        said[side, name] = "(" arguments(side, list) ") -> " typed(result)
    }
    function declared(side, pattern,    d, before, list, word, n) {
        while (match(text[side], pattern)) {
            d = substr(text[side], RSTART, RLENGTH)
            text[side] = substr(text[side], RSTART + RLENGTH)
            before = list = d
            sub(/\(.*/, "", before)
            sub(/[^(]*\(/, "", list)
            sub(/\).*/, "", list)
            sub(/.*> /, "", d)
            n = split(before, word, " ")
            note(side, word[n], list, side == "h" ? word[1] : d)
        }
    }
    function compare(side, what, header, other) {
        if (header == other && header != "") { passed++; return }
        failed++
        print what
        print "    " place["h"] ": " (header == "" ? "not there" : header)
        print "    " place[side] ": " (other == "" ? "not there" : other)
    }

    END {
        text["h"] = without_comments(text["h"])
        declared("h", "[a-z0-9_]+ ssaldorip_[a-z0-9_]+\\([^)]*\\)")
        declared("rs", "pub fn [a-z0-9_]+\\([^)]*\\) -> [a-z0-9]+")
        declared("rt", "pub extern \"C\" fn [a-z0-9_]+\\([^)]*\\) -> [a-z0-9]+")
        for (i = 1; i <= count; i++) {
            compare("rs", names[i], said["h", names[i]], said["rs", names[i]])
            compare("rt", names[i], said["h", names[i]], said["rt", names[i]])
        }
        compare("rs", "the version", version["h"], version["rs"])
        compare("rt", "the version", version["h"], version["rt"])
        print passed + 0 " passed, " failed + 0 " failed"
        exit failed > 0
    }' include/ssaldorip.h rust/src/sys.rs crates/ssaldorip/src/*.rt
