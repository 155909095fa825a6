#!/bin/sh
# The places still written in the language's older forms, point by point: `sh tools/count.sh` at the top of the repository lists them, `sh tools/count.sh counts`
# prints their numbers alone. A place is a line, the first of its kind in its function or type; some stay as they are, with the reason beside them.
set -eu
export LC_ALL=C
mode=${1:-list}
common='function crate_of(f) { sub(/^crates\//, "", f); sub(/\/.*/, "", f); return f }
    function bare(s) { sub(/ *\/\/.*/, "", s); return s }
    function place(s) { sub(/^ +/, "", s); return FILENAME ":" FNR ": " s }'
# Every line of code that matches.
lines() { re=$1 awk "$common"' bare($0) ~ ENVIRON["re"] { print place($0) }' crates/*/src/*.rt; }
# The first line that matches in each item of that kind: fn, struct, enum or const.
each() {
    kind=$1 re=$2 awk "$common"' { code = bare($0) } FNR == 1 { item = "" }
        code ~ /^ *(pub(\([a-z]+\))? )?(extern "C" )?(fn|struct|enum|const|impl|trait|use|mod) / {
            item = code; sub(/^ *(pub(\([a-z]+\))? )?(extern "C" )?/, "", item); sub(/ .*/, "", item); seen = 0 }
        item ~ "^(" ENVIRON["kind"] ")$" && !seen && code ~ ENVIRON["re"] && code !~ /^ *(requires|ensures) / { seen = 1; print place($0) }' crates/*/src/*.rt
}
# Each function on a line, in fields: crate, place, "pub" or "own", name, parameters, result, clauses.
functions=$(awk "$common"'
    function closed(s, open, shut,    i, depth) {
        for (i = 1; i <= length(s); i++) { depth += (substr(s, i, 1) == open) - (substr(s, i, 1) == shut); if (depth == 0) return i }
        return i }
    function tell(    rest, name, clauses, end) {
        gsub(/ +/, " ", text); gsub(/->/, "~", text); clauses = ""
        if (match(text, / (requires|ensures) /)) { clauses = substr(text, RSTART); text = substr(text, 1, RSTART) }
        rest = text; sub(/^.*fn /, "", rest); name = rest; sub(/[^a-z0-9_].*/, "", name); rest = substr(rest, length(name) + 1)
        if (rest ~ /^</) rest = substr(rest, closed(rest, "<", ">") + 1)
        end = closed(rest, "(", ")"); text = substr(rest, 2, end - 2); rest = substr(rest, end + 1)
        gsub(/^ |,? $/, "", text); gsub(/^ *~ *| *[{;]?[}]? *$/, "", rest)
        print crate_of(FILENAME) "\t" first "\t" (first ~ /: pub [a-z]/ ? "pub" : "own") "\t" name "\t" text "\t" rest "\t" clauses }
    FNR == 1 { open = 0 }
    /^ *(pub(\([a-z]+\))? )?(extern "C" )?fn [a-z]/ { open = 1; text = ""; first = place($0) }
    open { text = text " " $0 }
    open && (/^ *[{][}]?$/ || (/([{]|;|[{][}])$/ && text !~ /requires|ensures/)) { open = 0; tell() }' crates/*/src/*.rt)
# Each struct on a line, in fields: crate, place, name, and what it holds as `;name: type;`.
structs=$(awk "$common"' FNR == 1 { open = 0 }
    /^(pub(\([a-z]+\))? )?struct / { open = 1; held = ";"; first = place($0); name = $0; sub(/.*struct /, "", name); sub(/[^A-Za-z0-9].*/, "", name) }
    open && /^ +(pub )?[a-z0-9_]+: .*,$/ { field = $0; gsub(/^ +(pub )?|,$/, "", field); gsub(/; /, " by ", field); held = held field ";" }
    open && /^[}]/ { open = 0; print crate_of(FILENAME) "\t" first "\t" name "\t" held }' crates/*/src/*.rt)
of_functions() { printf '%s\n' "$functions" | awk -F '\t' "$1"; }
of_structs() { printf '%s\n' "$structs" | awk -F '\t' "$1"; }
# The heading of a point, and its places as they are read.
point() {
    found=$(sort -t : -k 1,1 -k 2,2n -k 3 -u)
    echo "point $1: $(printf '%s' "$found" | grep -c '' || :) places${2:-}"
    [ "$mode" = counts ] || [ -z "$found" ] || printf '%s\n' "$found"
}

{ # 1: a struct that holds a number, a mark or a flag, or a space or an operation as a number
    of_structs '$4 ~ /;(number|marked|loaded|writing|opened): u32;|: bool;|;kept: u32;$|;(space|op): u8;/ { print $2 }'
    # a refusal's number taken, made, tested or answered
    numbers='(^|[^a-z_])number(: | [!=]?=|,$)|[.]number([^a-z_(]|$)|number[(].*[)] [!=]= [0-9a-z]|(number|refuse|first_of|extern "C" fn [a-z_]+)[(].*-> u32|refused( !=|[(][0-9])|[ (](numbered|reads|refuses)[(].*, [0-9]+(, [0-9])?[)]'
    # a flag beside a value, made or tested, or such a pair answered
    flags='ok: (true|false)|[.](ok|kept|strays|wild)[ ,]|-> (Reading|Checked|Length|Number)( [{])?$'
    # nothing answered or met as a number or a name like any other; the three are one place in a function
    nothing='return ([0-9]+|NONE);|unwrap_or[(]0[)]|^ +(0|16)$|if (n|came) == 0|::(Missing|Unlisted)|is_unlisted'
    each fn "$numbers|$flags|$nothing"
    # a variant or a constant for nothing, and the marks
    each 'enum|const' ' (Unlisted|Missing|None|Nothing|Invalid),| (NONE|SET|CLEAR|FRAME|REGISTERS):'
    # a mark, which is a word, tested or set
    each fn '[!=]= (CLEAR|SET)|[:=] (CLEAR|SET)[,;]|(opened|writing): u32|readable: bool'
    # a truth value that says whether something could be done, beside the runtime that did it
    of_functions '$5 ~ /^rt: / && $6 == "bool" { print $2 }'
} | point 1
{ # 2: functions and structs that differ in a type, a size, a constant or a test, by their names: one name in two crates, or pairs
    each fn '(^|[)] )fn (register|sent|or|is_given|argument|line|complain|shorter|least|strokes|half_strokes|full|read_full|(decimal|held)_argument|masked|taken|joined|join|is_opaque|by_(line|continue)|holds_(trace|header)|lent_[a-z_]+|drawing|halved|storing|copying|lined|continued|bands|sides|high|low|initial_error|of_word|plus|minus)[<(](.*(Write|Whole|Mode|rt: |, |[0-9]: |b: u32|x: u32|buffer: ))'
    each fn '^pub (extern "C" )?fn (source|load|mode_of|is_unlisted|is_line|digest|copied|append|extend|zevkholtai_(append|extend)|differing[(]a: &.u8.|at_least)[<(]?'
    each struct '^pub struct (Answer|Ran|Played|Written|Told|Run|Walk|Length|Checked|Reading|Number|Reduced|Table) '
} | point 2
{ # 3: a loop on a condition, or over a range whose number is cut into digits or picks a row; a short one written out, by the line with its place 3
    lines '^ *while [^l]'
    awk "$common"' FNR == 1 || /(^| )fn / { name = "" } /^ *for [a-z]+ in [0-9a-z_]+[.][.]/ { name = $2; says = place($0) }
        name && !/^ *for / && $0 ~ "[(]" name " / |[^a-z]" name " % |\\[" name "\\]|cell[(]" name "," { print says; name = "" }' crates/*/src/*.rt
    each fn '\[([a-z]+ [+] )?3\]|start [+] 24'
} | point 3
{ # 4: a test made a number or itself again, || and && as a function or as a row of tests that return, arms that only say true or false
    each fn '(^| )fn (or|and|not|xor)[(]|if .* [{] (0|1|true|false) [}] else [{]|^ +return (true|false);|=> (true|false),'
    # the less, the greater or the distance of two
    lines 'if [a-z]+ <=? [a-z]+ [{] [a-z]+( - [a-z]+)? [}] else [{] [a-z]+( - [a-z]+)? [}]'
    # a number cut into bytes or joined of them, bits turned around, a part cut out and retyped, bytes stored one by one, a digit read
    each fn '% 0x100[)] as u8|0x100 [*]|[*] 0x1_0000_0000|>> [a-z]+[)] \^ [(]|[*] WORD [+]|% [0-9]+[)] as (u8|usize)|^ +[a-z]+\[[a-z]+ [+] 3\] = [a-z];|[(]c - [0-9]+[)]'
    # a field handed on to the field of its name; fields compared or added one by one, and printing of its own; a value of zeros, field by field
    awk "$common"' FNR == 1 || /(^| )fn / { seen = 0 } /^ +[a-z_]+: [a-z_.]+[.][a-z_]+,?$|^ +card[.][a-z_.]+ = [a-z_]+[.][a-z_.]+;$/ && !seen { to = $1; from = $NF
        gsub(/^.*[.]|[:,;]/, "", to); gsub(/^.*[.]|[,;]/, "", from); if (to == from) { seen = 1; print place($0) } }' crates/*/src/*.rt
    each fn '== [a-z]+ && |[+]=? [a-z.]*enabled|[^e]println!|line[(]rt, "[a-z]+ ", '
    each fn '^ +(lanes|pixels): 0,$'
    # numbers below 0 as two numbers; a kind made of its code by a match
    of_functions '$6 == "Whole" || ($5 ~ /: Whole/ && $6 == "u32") { print $2 }'; of_structs '$4 ~ /;more: u64;less: u64;/ { print $2 }'
    each fn '^ +0x[0-9A-F]+ => ([A-Z]|[a-z_]+[(])'
} | point 4
{ # 5: what stands left of a relation, or a predicate without its last word, in the clauses of three functions of a crate; the place is the first of them
    of_functions '$7 != "" { text = $7; gsub(/ (requires|ensures)( [a-z_]+)? [{]/, " × ", text); gsub(/ [{][}]?( [{][}]?)?$|[}]/, "", text); n = split(text, fact, / × | → /)
            for (i = 1; i <= n; i++) { f = fact[i]; gsub(/^[ (]+|[ )]+$/, "", f); if (!sub(/ (≡|≤|<) .*/, "", f) && !sub(/ [^ ]+$/, "", f)) continue
                gsub(/[a-z]+[.](old|new|now)/, "_", f); if (f ~ /^[a-z_]*$|^[0-9]+$| :/ || (f, $1, $2) in known) continue
                known[f, $1, $2]; if (!((f, $1) in first)) first[f, $1] = $2; what[f, $1] = f; n_of[f, $1]++; who[f, $1] = who[f, $1] " " $4 } }
        END { for (k in n_of) if (n_of[k] > 2) { sub(/: .*/, ": ", first[k]); print first[k] "the fact `" what[k] "` in" who[k] } }'
    # parameters that three functions of a crate share, those of the same functions together; what runs the program is no parameter here
    of_functions '{ text = $5; sub(/^rt: [^,]*(, )?/, "", text); n = split(text, part, ", "); for (i = 1; i < n; i++) for (j = i + 1; j <= n; j++) { k = $1 "\t" part[i] "\t" part[j]
            if (!(k in first)) { first[k] = $2; order[++last] = k } n_of[k]++; who[k] = who[k] " " $4 } }
        END { for (i = 1; i <= last; i++) { k = order[i]; if (n_of[k] < 3) continue; split(k, one, "\t"); set = one[1] who[k]; if (!(set in rows)) { rows[set] = one[2]; from[set] = first[k]; names[set] = who[k] }
                for (j = 2; j < 4; j++) if (!index(rows[set] ", ", one[j] ", ")) rows[set] = rows[set] ", " one[j] }
            for (set in rows) { sub(/: .*/, ": ", from[set]); print from[set] "the parameters `" rows[set] "` in" names[set] } }'
    # fields of one value handed on one by one
    each fn '[(]opened: u32, |[(]r[.][a-z]+, r[.]|[(]reader[.][a-z]+, reader[.]|[(]p[.][a-z]+, p[.]|[(]s[.][a-z]+, [(]?s[.]|[(]card[.][a-z.]+, card[.]|[(][a-z]+[.]plane, card[.]|^ +card[.]registers[.]bresenham1,$'
} | point 5
{ # 6: a struct with two arrays of one length, or with an array and a word for how much of it counts
    of_structs '{ n = split($4, part, ";"); split("", met); two = 0; for (i = 1; i <= n; i++) if (part[i] ~ / by /) { size = part[i]; sub(/.* by /, "", size); two += (size in met); met[size] }
        if (two || ($4 ~ / by / && $4 ~ /;(filled|used|n|length|size|count|loaded): /)) print $2 }'
    # two arrays of one length, a slice with a length or an end beside it, the front of a buffer as long as a number says, a table held by a match
    each fn ': \[[a-z0-9]+; [0-9A-Z]+\], [a-z]+: \[[a-z0-9]+; [0-9A-Z]+\]|&(mut )?\[u8\], (used|n|size|length|end|start): usize|^ +(used|n): usize,$|(n|length): usize, [a-z]+: &|\[0?[.][.](n|came|used)\]|^ +[0-9]+ => \['
    # rows of numbers where fields would have names
    lines ': \[\[[a-z0-9]+; [0-9]+\]; [0-9]+\]'
} | point 6
{ # 7: a truth value among the parameters, but for one to be reckoned with; the step chosen where it is called; functions called in turn, or in a table
    of_functions '$5 ~ /(^|, )[a-z_]+: bool/ && $5 !~ /(^|, )(a|ok|test): bool/ { print $2 }'
    each fn '[(]rt, (true|false)|[^_]one_more[(]holds'
    each fn 'says[(].*[(][0-9A-Fa-fx]*[)], [0-9]+[)]|[^n] s[0-9]+[(][)]|\[(&dyn )?fn[(]|&dyn Fn'
} | point 7
# 8: the answers that proofs still need, and their lines in all
answers=$(for file in crates/*/proofs/*/Answers.antt crates/*/proofs/*/*/Answers.antt crates/*/proofs/*/*/*/Answers.antt; do [ ! -f "$file" ] || echo "$file:1: $(grep -c '' "$file") lines"; done)
printf '%s\n' "$answers" | grep . | point 8 ", $(printf '%s\n' "$answers" | awk '{ n += $2 } END { print n + 0 }') lines"
