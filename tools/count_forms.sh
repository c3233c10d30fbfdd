#!/bin/bash
# Counts, at a commit, the candidates of the eight points of docs/DESIGN-PASS.md: one line for each command, with its number of hits.
# A hit is only a candidate: the page says what reading made of them.
# Usage, at the top of the repository: tools/count_forms.sh [-v] COMMIT      (-v prints the hits too)

export LC_ALL=C.UTF-8
verbose=
if [ "$1" = -v ]; then verbose=1; shift; fi
C=${1:-HEAD}
RT='crates/*/src/*.rt'

count() {
    label=$1
    hits=$(cat)
    printf '%s %s\n' "$label" "$(printf '%s' "$hits" | grep -c '')"
    if [ -n "$verbose" ]; then printf '%s\n' "$hits"; fi
}

# ---- 1: Option and Result by hand, flags, numbers for kinds
git grep -nE 'let (Some|Ok)\(.*\) = .* else \{' "$C" -- "$RT" | count 1a
git grep -nE '^ *((Some|Ok|Err)\(.*\)|None) => ' "$C" -- "$RT" | count 1b
git grep -nE -- '-> .*\bbool\b' "$C" -- "$RT" | count 1c
git grep -nE 'NO_BANKS|shown: 0|^ *0$' "$C" -- "$RT" | count 1d
git grep -nE '^ *(pub )?[a-z]+: Option<' "$C" -- "$RT" | count 1e
git grep -nE '\benum [A-Z]' "$C" -- "$RT" | count 1f
git grep -nE '\b(answer|number_of|answer_of) (result|reply)\b' "$C" -- "$RT" | count 1g
git grep -nE -A3 '^ *if ' "$C" -- "$RT" | grep -E '[0-9]:? *-? *None$|\{ None \}' | count 1h

# ---- 2: twins
git grep -hoE '\bfn [a-z_0-9]+' "$C" -- "$RT" | sort | uniq -c | awk '$1>1' | sort -rn | count 2a
git grep -h '' "$C" -- "$RT" | sed 's/^ *//' | grep -E '^.{40,}$' | grep -vE '^(//|ghost use|use )' | sort | uniq -d | count 2b
git grep -nE '\bconst [A-Z_]+: (Shape|BlockRecord|Done|ZoneReport|Zone)\b' "$C" -- "$RT" | count 2c

# ---- 3: loops
git grep -nE '^ *(for|while|loop)\b' "$C" -- "$RT" | count 3a
git grep -nE '^ *(while|loop)\b' "$C" -- "$RT" | count 3b
git grep -nE '\.(all|any|position|filter|count|nth|fold|map)\(' "$C" -- "$RT" | count 3c

# ---- 4: equality, order, copying, conversion and printing by hand
git grep -nE '\bfn (number|state|code|show_[a-z]+|digit|parse|to_[a-z]+|image_shape|mark_at|header|block_head|in_range|is_width|standing_pages|lives_left|standing_from|lives_from|next)\b' "$C" -- "$RT" | count 4a
git grep -nE '^ *impl.* for ' "$C" -- "$RT" | count 4b
git grep -nE ' == .* && .* == |\|\| .* == .*\|\| ' "$C" -- "$RT" | count 4c
git grep -nE '(0 <|== 0).*(&&|\|\|).*(<=|>)' "$C" -- "$RT" | count 4d
git grep -nE '^ *[a-z]+: (0|None|[A-Za-z]+::Empty),|: 0, [a-z]+: 0' "$C" -- "$RT" | count 4e
git grep -nE 'copy_from_slice|\*byte = |\*byte == |byte == 1' "$C" -- "$RT" | count 4f
git grep -nE '^ *(self\.records\[i\] = BlockRecord|Shape) \{$' "$C" -- "$RT" | count 4g
git grep -nE ' as (usize|u8|u16)\b' "$C" -- "$RT" | count 4h
git grep -nE '(format|println|write)!\(' "$C" -- "$RT" | count 4i

# ---- 5: facts in many contracts, parameters that travel together
git grep -nE '^ *(requires|ensures)\b' "$C" -- "$RT" | count 5a
git grep -nE '^ *requires\b' "$C" -- "$RT" | count 5b
git grep -nE '\bblock: usize' "$C" -- "$RT" | count 5c
git grep -nE 'bad: &\[' "$C" -- "$RT" | count 5d
git grep -nE '\b(start|n): usize' "$C" -- 'crates/chips/src/image*.rt' | count 5e
git grep -nE '(≤|<) (16|64|1024)\b' "$C" -- "$RT" | count 5f
git grep -nE 'heap: Global' "$C" -- "$RT" | count 5g
git grep -nE 'IfOk result \(λ s\. string_bytes s' "$C" -- "$RT" | count 5h
git grep -nE 'flat_card F' "$C" -- "$RT" | count 5i
git grep -nE 'Intact F|Reopens (self|result)' "$C" -- "$RT" | count 5j
git grep -nE 'is_ok result ≡ false' "$C" -- "$RT" | count 5k
git grep -nE '^ *(requires|ensures).*(bytes_of|memory_of_image|Reopens)' "$C" -- "$RT" | count 5l
git grep -nE '^ *(requires|ensures).*(parts_of|memory_of )' "$C" -- "$RT" | count 5m
git grep -nE '^ *ensures.*(words_left|geometry_of|line_of)' "$C" -- "$RT" | count 5n

# ---- 6: buffers with a length or a start, parallel arrays, tables
git grep -nE "^    (pub )?[a-z]+: (&'a (mut )?\[|\[)" "$C" -- "$RT" | count 6a
git grep -nE '&(mut )?\[u8\], (n|start): usize' "$C" -- "$RT" | count 6b
git grep -nE 'fn [a-z_]+\(&self, start: usize' "$C" -- "$RT" | count 6c
git grep -nE '&\[\(usize, usize\)\]' "$C" -- "$RT" | count 6d
git grep -nE '\[\.\.(bytes|records|length|long|more_long|n|m)\]|\[0\.\.records' "$C" -- "$RT" | count 6e
git grep -nE '\b(front|count|shown): usize|slot: Option' "$C" -- "$RT" | count 6f

# ---- 7: switches on which step to run
git grep -nE '\b[a-z]+: bool\b' "$C" -- "$RT" | count 7a
git grep -nE 'b"[A-Z]" =>|Command::[A-Z][a-z]+ \{.*=>' "$C" -- "$RT" | count 7b
git grep -nE '\bdyn |\bimpl Fn|: Fn(Mut|Once)?\(|: fn\(|\[fn|move \||[(=] ?\|[a-z&(]' "$C" -- "$RT" | count 7c
git grep -nE 'bank < low' "$C" -- "$RT" | count 7d

# ---- 8: proof files
git ls-tree -r --name-only "$C" | grep '/proofs/.*/Answers.antt$' | count 8a
git ls-tree -r --name-only "$C" | grep '/proofs/.*/Invariants.antt$' | count 8b
git grep -nE '^pub [^ ]+ : goal\.' "$C" -- 'crates/*/proofs/*Answers.antt' | count 8c
git grep -nE '^abbrev pub [^ ]+ : goal\.' "$C" -- 'crates/*/proofs/*Invariants.antt' | count 8d
git ls-tree -r --name-only "$C" | grep '/proofs/.*/Proof.antt$' | count 8e
git ls-tree -r --name-only "$C" | grep -E '^crates/[^/]+/proofs/[^/]+\.antt$' | count 8f
git grep -E '^ .{40,}' "$C" -- 'crates/*/proofs/*Answers.antt' | sed -E 's/^[^:]*:([^:]*): */\1\t/' | sort -u | cut -f2- | sort | uniq -c | awk '$1>1' | sort -rn | count 8g
for f in $(git ls-tree -r --name-only "$C" | grep '/proofs/.*/Answers.antt$'); do git show "$C":$f | awk -v f=$f 'function out(){if(n)print t "\t" f ":" n; n=0} /^pub [^ ]+ : goal\./{out(); n=NR; t=""; b=0; next} /^--|^[a-z].* : /{out(); next} n{x=$0; if(!b){sub(/^[^=]*=/,"",x); b=1} gsub(/[ ]+/," ",x); sub(/^ /,"",x); t=(t==""?x:t (x==""?"":" ") x)} END{out()}'; done | awk -F'\t' '{c[$1]++; l[$1]=l[$1] " " $2} END{for(k in c) if(c[k]>1) print c[k] l[k] " = " k}' | sort | count 8h
