#!/bin/sh
# Every public function states its outcome, asks nothing of its caller, and has its theorem in its crate's proofs/Unique.antt: one
# about the function's own clauses, called NAME-one (or TYPE-NAME-one, where two types have a function of that name). Those of
# modules called `raw` may ask (docs/PROMISES.md says why), and their theorems are called raw-NAME-one. A value with a ghost field
# asks too: who makes it has to show the field's fact.
# What a public trait's impl defines is public: it states what its trait's function does, or a ghost NAME_gives, and its theorem
# has a name of its own.
cd "$(dirname "$0")/.." || exit 1

files=$(find crates -path 'crates/*/out' -prune -o -path '*/src/*' -name '*.rt' ! -name main.rt -print | sort)

# The files are read twice: for traits' functions and for types with ghost fields, and then for what is public.
# shellcheck disable=SC2086
awk '
    # The theorems of a crate, by the function whose clauses they speak of. Read once.
    function read_theorems(crate,    path, line, w, statement, name) {
        if (crate in read) return
        read[crate] = 1
        path = "crates/" crate "/proofs/Unique.antt"
        while ((getline line < path) > 0) {
            if (line ~ /^use .*\.Reads as /) { split(line, w, " "); alias[crate, w[2]] = w[4] }
            if (line ~ /^pub [^ ]*-one :/) { split(line, w, " "); name = w[2]; statement = 1 }
            else if (line !~ /^ /) statement = 0
            if (statement)
                while (match(line, /[^ (]+\.Post/)) {
                    about[crate, substr(line, RSTART, RLENGTH - 5)] = about[crate, substr(line, RSTART, RLENGTH - 5)] " " name " "
                    line = substr(line, RSTART + RLENGTH)
                }
        }
    }
    # Words in one, each with a capital: message::Refusal is MessageRefusal.
    function joined(words,    w, n, i, all) {
        gsub(/\047[a-z_]+/, "", words)
        n = split(words, w, /[^A-Za-z0-9_]+/)
        for (i = 1; i <= n; i++) all = all toupper(substr(w[i], 1, 1)) substr(w[i], 2)
        return all
    }
    function done_with(    crate, module, path, call, theorems, raw, i) {
        if (name == "") return
        crate = module = file
        sub(/^crates\//, "", crate)
        sub(/\/.*/, "", crate)
        sub(/.*\/src\//, "", module)
        sub(/\.rt$/, "", module)
        gsub(/\//, ".", module)
        path = "Rattle." crate ".proofs." module "." (of == "" ? "" : of ".") name ".Reads"
        raw = file ~ /\/raw\.rt$/
        sub(/->.*/, "", signature)
        for (i in guarded)
            if (signature ~ "(^|[^A-Za-z0-9_])" i "([^A-Za-z0-9_]|$)" || (signature ~ /self/ && i == type)) asks = 1
        fault = (asks && !raw ? " asks something of its caller" : "") (states ? "" : " states no outcome")
        read_theorems(crate)
        theorems = about[crate, alias[crate, path]]
        call = name
        gsub(/_/, "-", call)
        if (raw) call = "raw-" call
        if (trait != "" ? theorems !~ (raw ? "raw-" : "-one ") : !index(theorems, " " call "-one ") && !index(theorems, " " tolower(type) "-" call "-one "))
            fault = fault " has no theorem " (trait != "" ? "" : call "-one ") "about " path
        if (fault == "") passed++; else { failed++; print file ": " name fault }
        name = ""
    }
    /^(pub )?(impl|trait|struct|enum)/ {
        done_with()
        head = $0
        sub(/^(pub )?(impl(<[^>]*>)?|trait|struct|enum) */, "", head)
        sub(/ *[{;(].*/, "", head)
        trait = type = of = gives = ""
        kind = $1 == "pub" ? $2 : $1
        if (kind !~ /^impl/) { type = head; sub(/[^A-Za-z0-9_].*/, "", type) }
        else if (head ~ / for /) {
            trait = type = head
            sub(/ for .*/, "", trait)
            sub(/.* for /, "", type)
            of = joined(type) joined(trait)
            sub(/<.*/, "", trait)
            sub(/<.*/, "", type)
        } else { type = head; sub(/<.*/, "", type); of = type }
    }
    /^    ghost [a-z_]+:/ && kind == "struct" { guarded[type] = 1 }
    /^    ghost [a-z_]+ =/ && trait != "" { gives = gives " " $2 " " }
    /^ *(pub )?(extern "C" )?fn / {
        done_with()
        name = $0
        sub(/^ *(pub )?(extern "C" )?fn /, "", name)
        sub(/[^A-Za-z0-9_].*/, "", name)
        public = $1 == "pub" || trait != ""
        if (kind == "trait") { method = type "::" name; public = 0 }
        else {
            asks = trait "::" name in trait_asks || index(gives, " can_" name " ")
            states = trait "::" name in trait_states || index(gives, " " name "_gives ")
        }
        if (pass == 1 || !public) name = ""
        file = FILENAME
        signature = ""
        opened = name != ""
    }
    opened { signature = signature " " $0 }
    opened && /\)( ->.*)?( \{)?$/ { opened = 0 }
    /^ *requires / { asks = 1; if (kind == "trait") trait_asks[method] = 1 }
    /^ *ensures / { states = 1; if (kind == "trait") trait_states[method] = 1 }
    /^ *\{$/ || /^ *\}$/ { done_with() }
    /^}$/ { type = trait = of = kind = "" }
    END {
        done_with()
        print passed + 0 " passed, " failed + 0 " failed"
        exit failed > 0
    }' pass=1 $files pass=2 $files
