#!/bin/bash
# Counts, point by point, the places in src/ that docs/DESIGN-PASS.md is about. With -l, lists them.
cd "$(dirname "$0")/.." || exit 1
mapfile -t sources < <(find crates -path '*/src/*' -name '*.rt' -not -path '*/out/*' | sort)

count() {
    local what="$1" pattern="$2"
    printf '%4d  %s\n' "$(grep -hE "$pattern" "${sources[@]}" | wc -l)" "$what"
    [ -n "$LIST" ] && grep -nE "$pattern" "${sources[@]}" | sed 's/^/      /'
}

[ "$1" = -l ] && LIST=yes
echo '1. Option, Result and enums'
count 'enums' '^ *(pub |pub\(crate\) )?enum '
count 'an arm that passes an Ok, an Err or a None on, or turns a Some into an Ok' \
    'Err\(e\) => Err\(e\)|None => Err\(|None => None|Ok\(x\) => Ok\(x\)|Ok\(_\) => Ok\(\(\)\)|Some\(_\) => Ok\(\(\)\)'
count 'an Ok or an Err asked for by if let' 'if let (Err|Ok)\('
count 'a Some or an Ok taken out, and a None or an Err handed out' 'let (Some|Ok)\(.*else \{'
count 'a flag among parameters or fields' ': bool,?$|: bool[,)]'
echo '2. Twins'
count 'impls of Kind, four functions each' '^impl<.*Kind<.a> for'
count 'impls of Listed' '^impl Listed for'
count 'impls of Spanned' '^impl Spanned for'
echo '3. Loops'
count 'loops by hand' 'for [a-z] in [0-9]|while |loop \{'
echo '4. Conversions'
count 'functions that turn one value into another' 'fn (make|split|strip|full|same|letters?|layer_number|number|layer|printed|printable|plus_of|minus_of|family|size_of)[<(]'
echo '5. Facts and parameters'
count 'requires clauses' 'requires.*\{'
count 'functions that take a buffer with its area, or a tag with its data' 'buf: &.*area: Area|tag: &\[u8\], bytes'
count 'the same, a parameter a line' '^    area: Area,|^    tag: &\[u8\],'
echo '6. Buffers, arrays and lists'
count 'arrays' '\[0u8; |const [A-Z]+: \[|vec!\['
echo '7. Steps'
count 'macros and groups that a step is picked by' 'macro_rules|Family::'
echo '8. Proofs'
printf '%4d  proof files\n' "$(find crates -path '*/proofs/*' -name '*.antt' -not -path '*/out/*' | wc -l)"
printf '%4d  lines of answers and invariants\n' "$(find crates -path '*/proofs/*' \( -name Answers.antt -o -name Invariants.antt \) -not -path '*/out/*' -exec cat {} + | wc -l)"
