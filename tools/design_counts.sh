#!/usr/bin/env bash
# Counts the places of docs/DESIGN-PASS.md. Run at the top of the repository: `tools/design_counts.sh` gives each part's count,
# `tools/design_counts.sh 3a` the places of part 3a, one a line, the crate first.
set -u
# fns: a line for each function: crate, place, name, signature, contract, body, comment (tabs between)
fns() { awk '
FNR == 1 { c = ""; infn = 0; split(FILENAME, p, "/") }
infn == 0 && /^ *\/\// { c = c " " $0; next }
infn == 0 && /^ *(pub(\([a-z]+\))? )?(unsafe )?(const )?(extern "C" )?fn / {
    infn = 1; s = 1; h = k = b = ""
    match($0, /^ */); ind = substr($0, 1, RLENGTH)
    n = $0; sub(/.*fn /, "", n); sub(/[^A-Za-z0-9_].*/, "", n); line = FNR
}
infn == 1 {
    t = $0; sub(/^ +/, "", t)
    if (s < 3 && $0 ~ "^" ind "(\\{\\}?)$") { s = 3; if (t == "{}") end = 1; else next }
    else if (s < 3 && t ~ /^(requires|ensures) /) { s = 2; k = k " " t }
    else if (s == 1) { h = h " " t; if (t ~ /\{$/) { s = 3; next } }
    else if (s == 2) k = k " " t
    else if ($0 == ind "}") end = 1
    else b = b " " t
    if (end) { print p[2] "\t" FILENAME ":" line "\t" n "\t" h "\t" k "\t" b "\t" c; infn = 0; end = 0; c = "" }
    next
}
{ c = "" }
' crates/*/src/*.rt; }
# enums: a line for each enum: crate, place, name, bare variants, variants with something in them, the variants
enums() { awk '
{ split(FILENAME, p, "/") }
/^ *(pub(\([a-z]+\))? )?enum / { e = $0; sub(/.*enum /, "", e); sub(/[^A-Za-z0-9].*/, "", e); at = FNR; v = ""; bare = full = 0; in_e = 1; next }
in_e && /^}/ { print p[2] "\t" FILENAME ":" at "\t" e "\t" bare "\t" full "\t" v; in_e = 0 }
in_e && /^    [A-Z]/ { t = $0; sub(/^ +/, "", t); v = v " " t; if (t ~ /^[A-Za-z]+,$/) bare++; else full++ }
' crates/*/src/*.rt; }
# loops: a line for each loop: counts (its test has a variable that its body, at the outermost, puts up or down by a fixed step), other or for; crate, place, function, head
loops() { awk '
{ split(FILENAME, p, "/") }
/^ *fn |^ *pub.* fn / { f = $0; sub(/.*fn /, "", f); sub(/[^A-Za-z0-9_].*/, "", f) }
/^ *(while .*|loop|for .*) \{$/ {
    match($0, /^ */); i[++d] = RLENGTH; w[d] = $0; sub(/^ +/, "", w[d]); l[d] = FNR; fn[d] = f; cnt[d] = "other"; if (w[d] ~ /^for/) cnt[d] = "for"; next
}
d {
    match($0, /^ */)
    if (RLENGTH == i[d] && $0 ~ /^ *\}$/) { print cnt[d] "\t" p[2] "\t" FILENAME ":" l[d] "\t" fn[d] "\t" w[d]; d--; next }
    if (RLENGTH == i[d] + 4 && match($0, /[a-z_]+ [+-]= [0-9A-Z]+;$/)) { v = $0; sub(/^ +/, "", v); sub(/ .*/, "", v); if (w[d] ~ "(^|[^a-z_.])" v "([^a-z_]|$)") cnt[d] = "counts" }
}
' crates/*/src/*.rt; }
# twins MIN LOOSE: groups of functions whose bodies, of MIN words or more, differ in types, sizes, constants and variables' names alone; with LOOSE=1 also in which functions they call
twins() { fns | awk -v MIN=$1 -v LOOSE=$2 '
BEGIN { FS = "\t" }
$6 != "" {
    s = $6; o = ""; nv = 0; split("", v); tok = 0
    while (match(s, /[A-Za-z_][A-Za-z_0-9]*|[0-9][0-9a-fA-Fx_]*|[^ ]/)) {
        t = substr(s, RSTART, RLENGTH); s = substr(s, RSTART + RLENGTH); tok++
        if (t ~ /^[A-Z]/) t = "T"
        else if (t ~ /^(u8|u16|u32|u64|usize|i64)$/) t = "T"
        else if (t ~ /^[0-9]/) t = "0"
        else if (t ~ /^[a-z_]/ && t !~ /^(if|else|while|for|in|loop|match|let|mut|return|true|false|as|self|len)$/) {
            if (s ~ /^\(/ && !LOOSE) t = t
            else if (s ~ /^\(/) t = "f"
            else { if (!(t in v)) v[t] = "v" (++nv); t = v[t] }
        }
        o = o " " t
    }
    gsub(/T : : /, "", o)
    if (tok >= MIN) { g[o] = g[o] " " $1 "::" $3; n[o]++ }
}
END { for (k in g) if (n[k] > 1) print n[k] "\t" g[k] }
' | sort -rn; }
# per: of lines that begin with a crate: how many in each crate, and in all
per() { cut -f1 | sort | uniq -c | awk '{ n += $1; printf "%s %s, ", $2, $1 } END { print "all " n + 0 }'; }
# uncited: names of lemma files that stand on no line of any .antt or .rt file but at the head of their type's line or of an equation
uncited() { awk '
{ sub(/--.*/, ""); s = $0; gsub(/[(){},;.]|\[|\]|λ|→|«|»/, " ", s); sub(/^ *(pub |abbrev |unfoldable )*/, "", s); k = split(s, a, / +/) }
FILENAME ~ /^crates\/[a-z_]+\/proofs\/[A-Za-z]+\.antt$/ && /^ ? ? ? ?(pub |abbrev |unfoldable )*[A-Za-z][^ ]* : / && a[1] != "let" { split(FILENAME, p, "/"); d[a[1]] = p[2] "\t" p[4] "\t" a[1] }
{ for (i = (a[2] == ":" || $0 ~ / =( |$)/) ? 2 : 1; i <= k; i++) if (i == 1 || a[i] != a[1]) u[a[i]] }
END { for (n in d) if (!(n in u)) print d[n] }
' $(find crates -name '*.antt') crates/*/src/*.rt | sort; }

# ---- the parts
# 1a. Own enums of the shape of Option or Result
p1a() { enums | awk -F'\t' '$4 + $5 <= 3 && $5 && $6 ~ /Nothing|None|Broken|Unread|Accepted|Refused/' | cut -f1-3,6; }
# 1b. Where those are taken apart or made (lines)
p1b() { grep -nE '(Found|FoundReg|FoundBlock|FoundSlot|FoundLevel|FoundOperand|FoundClass|Num|Source|Checked|Outcome|Lexed|Piece|Open)::' crates/*/src/*.rt | awk -F'[/:]' '{ print $2 "\t" $0 }'; }
# 1c. Structs that are numeric codes, and their constants
p1c() { grep -nE 'pub struct (Kind|Count|Mark|Word)\(|pub const [A-Z_]+: (Kind|Count) |pub const [A-Z]+: u32 = ([1-7]00000|1000[0-2][0-9]|[0-3]);' crates/*/src/*.rt | awk -F'[/:]' '{ print $2 "\t" $0 }'; }
# 1d. Functions that answer a sentinel number
p1d() { fns | awk -F'\t' '$4 ~ /-> (u8|u16|u32|u64|usize|Value|RegGroup|RegClass) *\{?$/ && ($7 ~ /, or 10|, or 0\.|one past the last|one more than the limit|; 0 where|then .NONE|the first where/ || $6 ~ /(^|[^:A-Za-z_])(NONE|NO_HEAD)([^A-Z_]|$)|^ *entry\(/ || $3 ~ /^(head_in|block_row)$/)' | cut -f1-3,7; }
# 1e. Functions that take or store `NONE` or `NO_HEAD` as a value
p1e() { fns | awk -F'\t' '$6 ~ /(^|[^:A-Za-z_])(NONE|NO_HEAD)([^A-Z_]|$)/' | cut -f1-3; }
# 1f. A flag with a value beside it
p1f() { grep -nE 'pub struct (Decimal|Pack|Parsed|Told)\b|pub fn read\(sheet: .*-> bool|let mut open: usize|fn meet\(rec.*-> bool' crates/*/src/*.rt | awk -F'[/:]' '{ print $2 "\t" $0 }'; }
# 2a. Bodies that differ in types, sizes, constants and variables' names alone
p2a() { twins 4 0 | awk '{ for (i = 2; i <= NF; i++) { split($i, a, "::"); print a[1] "\tgroup " NR " of " $1 "\t" $i } }'; }
# 2b. Bodies of 14 words or more that differ besides in which functions they call
p2b() { twins 14 1 | awk '{ for (i = 2; i <= NF; i++) { split($i, a, "::"); print a[1] "\tgroup " NR " of " $1 "\t" $i } }'; }
# 3a. `while` loops that count
p3a() { loops | awk -F'\t' '$1 == "counts"' | cut -f2-; }
# 3b. Loops that do not
p3b() { loops | awk -F'\t' '$1 == "other"' | cut -f2-; }
# 3c. `for` loops and chains that are there already
p3c() { grep -nE '^ *for .* in |\.iter\(\)|\.iter_mut\(\)|\.rev\(\)|\.(all|any|find|position|fold)\(\|' crates/*/src/*.rt | awk -F'[/:]' '{ print $2 "\t" $0 }'; }
# 4a. Equality, and tests of a variant
p4a() { fns | awk -F'\t' '$3 ~ /^(same_place|is_class|is_fixed|is_use|is_use_group|is_early|fixed_holds|kinds_match|placed|is_closed|takes_early|takes_other|reuse_within|defines)$/' | cut -f1-3; }
# 4b. Comparisons of the numbers inside two nouns (lines)
p4b() { grep -nE '\b[a-z]+\.0 (==|!=|<|<=) [a-z]+\.0\b' crates/*/src/*.rt | grep -v ensures | awk -F'[/:]' '{ print $2 "\t" $0 }'; }
# 4c. Matches with two or more arms alike, where `|` or `_` would do (functions)
p4c() { fns | awk -F'\t' '{ s = $6; split("", n); m = 0; while (match(s, /[A-Z][A-Za-z]*::[A-Z][A-Za-z]*(\([^()]*\)| \{[^{}]*\})? => (\{\}|[A-Za-z_:.]+(\([^(){}]*(\([^()]*\))?\))?,)/)) { a = substr(s, RSTART, RLENGTH); s = substr(s, RSTART + RLENGTH); sub(/.*=> /, "", a); if (++n[a] > m) m = n[a] } if (m > 1) print $1 "\t" $2 "\t" $3 "\t" m " arms" }'; }
# 4d. Order, difference, and `&&`
p4d() { fns | awk -F'\t' '$3 ~ /^(less|least|greatest)$/ || ($1 == "names" && $3 == "both")' | cut -f1-3; }
# 4e. Conversion
p4e() { fns | awk -F'\t' '$3 ~ /^(reg|slot|of|number|told|sum|place_of|constraint_of|kind_of|edit_of|espill_of|ereload_of|place_cell|cell|store_edit|slots_of|word_of|place_word|mark|lookup|value_of|class_of|refused)$/ && $1 !~ /^(replay|marks|names)$/ && !($1 == "sheet" && $3 == "number")' | cut -f1-3; }
# 4f. Copying and filling
p4f() { fns | awk -F'\t' '$3 ~ /^(stretch|set_nothing|begin_empty|take_known|drop_value|put_set|class_set|untouched)$/ && $1 != "graph" || ($1 == "replay" && $3 == "fill")' | cut -f1-3; }
# 4g. Printing, and reading of numbers
p4g() { fns | awk -F'\t' '$3 ~ /^(put|put_[a-z_]+|render|render_refused|digit|digits|packed|is_digit|plain|scale|write_[a-z]+)$/ && $1 ~ /^(answer|replay|sheet)$/ && !($1 == "sheet" && $2 ~ /shapes/) || ($1 == "replay" && $3 == "number")' | cut -f1-3; }
# 5a. Facts that stand in the contracts of three or more functions
p5a() { for f in 'Ready t[.]' 'Long rec[.]' 'Ordered t[.]' 'Filled [(]sheet_in t[.]now[)] classes' 'Walked t[.]' 'Unset ' 'Indexed rs t[.]' 'first_refusal [(]checks [^)]*[)]+ ≡ none' 'within_limits [(][^)]*[)] ≡ true' 'table_length [(]length [a-z]+[.]now[)] ≤' 'count_in t[.]now 1[02]( [*] edit_width)? ≤ (length|64)' 'heads[.]now ≡ heads_of' 'homes[.]0 ≡ home_set' 'shared[.]0 ≡ shared_set' 'in_order [(]sheet_in t[.]now[)][.]edits ≡ true' 'Same [a-z]+[.]0 ' 'Lies ' 'Stands t[.]' 'SmallEdit ' 'Pos w ' 'first ≤ edit_limit' '(rows|marks[.]now) ≤ page_rows' 'at ≤ length s[.]now' 'Long rec[.]old → .*Becomes rec[.]old rec[.]new' 'Laid ' 'Gives ' 'With own'; do fns | awk -F'\t' -v f="$f" '$5 ~ f { print $1 "\t" f "\t" $3 }'; done; }
# 5b. Pairs of parameters that stand together in ten or more functions
p5b() { fns | awk -F'\t' '{ s = $4; sub(/^[^(]*fn [a-z_0-9]+(<[^(]*>)?\(/, "", s); sub(/\)( ->.*)?[ {]*$/, "", s); k = split(s, a, /, */); m = 0; split("", p); for (i = 1; i <= k; i++) { t = a[i]; gsub(/^ +| +$|&mut |&/, "", t); sub(/^mut /, "", t); if (t ~ /:/) p[++m] = t } for (i = 1; i <= m; i++) for (j = i + 1; j <= m; j++) { n[p[i] ", " p[j]]++ } } END { for (q in n) if (n[q] >= 10) print n[q] "\t" q }' | sort -rn; }
# 6a. A length or a place beside a buffer (functions)
p6a() { fns | awk -F'\t' '$4 ~ /out: &mut \[u8\],? .*at: usize|at: usize.*out: &mut \[u8\]|(input|out|bytes): &\[u8(; [A-Z]+)?\], (read|n): usize|EditRecord; PAGE\].*rows: usize|rows: usize\) -> \[EditRecord/ || ($1 == "accept" && $3 == "operands_hold") || ($1 == "replay" && $3 ~ /^(first|write_answer|number|untouched|tell_touched|part|case)$/)' | cut -f1-3; }
# 6b. Parallel arrays (functions that take both, and the sections of the record)
p6b() { { fns | awk -F'\t' '$4 ~ /ends: .*wait: |wait: .*ends: |vs: &\[u32\], rs: &\[u32\]|edits: .*marks: |succs: .*preds: /' | cut -f1-3; grep -nE 'pub const (UNITREG|UNITVALUE|NOTEDREG|NOTEDVALUE|HELD|STORED|DEFINED|SPILLED): ' crates/*/src/*.rt | awk -F'[/:]' '{ print $2 "\t" $0 }'; }; }
# 6c. Searches by hand
p6c() { fns | awk -F'\t' '$3 ~ /^(group_headed|lowest|lowest_breaking|lowest_outside|highest|is_in|stands_twice|some_entry|some_emergency|some_later|somewhere|apart_from_later|untouched)$/ && $6 ~ /while/' | cut -f1-3; }
# 6d. Arenas of indices, flat tables (functions that take one)
p6d() { fns | awk -F'\t' '{ if ($4 ~ /[( ]t: &(mut )?\[u32\]/) print $1 "\ttable\t" $3; if ($4 ~ /rec: &(mut )?\[u32; LENGTH\]|WalkRecord/) print $1 "\trecord\t" $3; if ($4 ~ /states: /) print $1 "\tstates\t" $3; if ($4 ~ /classes: /) print $1 "\tclasses\t" $3; if ($4 ~ /edits: &(mut )?\[u32\]/) print $1 "\tedits\t" $3; if ($4 ~ /touched: |words: &mut \[u64\]/) print $1 "\ttouched\t" $3; if ($4 ~ /heads: /) print $1 "\theads\t" $3 }'; }
# 7a. Functions that take an enum of bare variants (or are its methods)
p7a() { e=$(enums | awk -F'\t' '$5 == 0 { print $3 }' | paste -sd'|'); fns | awk -F'\t' -v e=": ($e)[,) ]" '$4 ~ e || $3 ~ /^takes_/' | cut -f1-4; }
# 7b. Functions that take a flag for a step
p7b() { fns | awk -F'\t' '$4 ~ /(some|swept|sole|tied): bool/' | cut -f1-3; }
# 7c. An enum that says what a later step does
p7c() { fns | awk -F'\t' '$4 ~ /: Fate[,) ]|-> Fate|: Told[,) ]/' | cut -f1-3; }
# 7d. Closures, `impl Fn`, `dyn`, tables of functions that are there already
p7d() { grep -nE 'impl Fn|: Fn|dyn |: fn\(|\|[a-z_, ]+\| ' crates/*/src/*.rt | grep -vE ':[0-9]+: *//|ensures|requires' | awk -F'[/:]' '{ print $2 "\t" $0 }'; }
# 8a. Proof files, and goals that are answered
p8a() { for c in crates/*/proofs; do n=${c#crates/}; printf '%s\t%s\t%s\t%s\t%s\t%s\n' ${n%/proofs} $(find $c -mindepth 2 -name Answers.antt | wc -l) $(find $c -name Invariants.antt | wc -l) $(find $c -name Proof.antt | wc -l) $(find $c -maxdepth 1 -name '*.antt' ! -name Lib.antt | wc -l) $(cat $(find $c -mindepth 2 -name Answers.antt -o -mindepth 2 -name Proof.antt) /dev/null | grep -cE '^(pub )?[a-z][^ ]* : goal[.]'); done; }
# 8c. Answers that say only what the search says
p8c() { grep -rnE '= (search rules|search [(]rules[^)]*[)]|omega arith|refl)$' crates/*/proofs --include=Answers.antt | awk -F'[/:]' '{ print $2 "\t" $0 }'; }
# 8d. Right sides of answers that stand in three functions or more
p8d() { grep -rhE '^[a-z][A-Za-z0-9_+-]* .*= ' crates/*/proofs --include=Answers.antt | sed 's/^[^=]*= //' | sort | uniq -c | awk '$1 >= 3' | sort -rn; }

case "${1:-}" in
    "") for k in 1a 1b 1c 1d 1e 1f 2a 2b 3a 3b 3c 4a 4b 4c 4d 4e 4f 4g 5a 5b 6a 6b 6c 6d 7a 7b 7c 7d 8a 8c 8d; do echo "$k $(p$k | wc -l)"; done ;;
    *) "p$1" ;;
esac
