#!/usr/bin/env bash
# Counts, by patterns, the places in crates/*/src that each point of docs/DESIGN-PASS.md is about.
# bash tools/places.sh [DIR]: DIR is a checkout, here the one that the script stands in.
set -euo pipefail
cd "${1:-$(dirname "$0")/..}"
count() {
    local name=$1
    shift
    printf '%-4s %4s\n' "$name" "$({ grep -hE -e "$@" crates/*/src/*.rt || true; } | wc -l)"
}
# 1: enums of our own; functions that change something and answer a flag; flags among fields and parameters; numbers
#    given to the cases of an enum; an option that stands for a refusal
count 1a '^ *(pub(\(crate\))? )?enum '
count 1b '^ *(pub(\(crate\))? )?fn .*(&mut self|items: &mut|room: &mut).*-> bool'
count 1c ': bool[,)]'
count 1d '=> [0-9]+,$'
count 1e '-> Option<Refusal>|return None;'
# 2: functions of one name and a suffix; the columns of the rows; one class of bytes to a function
count 2a 'fn (module|common_js|jsx|plain|other)_column|fn (skip|is)_(ws|digit|e|sign)[(_]|fn is_at|fn (array|object|elements|members|gives|gives_same)\('
count 2b 'fn (push|copy|put)(<|\()'
# 3: sums and differences with assignment; while and loop
count 3a '(\+|-)= '
count 3b '^ *(while |loop )'
# 4: conversions, equality and words by hand
count 4a 'fn (unused|from_byte|only|message|told|letter|sort_of|[a-z]+_reason|kind_of|as_small|is_letter)\('
count 4b '(Ok|Some)\((\w+)\) => (Ok|Some)\(\2\),'
count 4c '#\[derive\(Clone, Copy\)\]'
# 5: the store with the trail's two lists; what each function said of their memory; facts required of a text and a place,
#    and of lengths; a text and a place
count 5a 'steps: &mut List<Step>|paths: &mut List<u8>'
count 5b 'ensures (steps|paths)_memory'
count 5c 'requires.*(at ≤ length text.now|is_ws \(slice_index_or|length (candidate|joined).old ≡ 1024)'
count 5d 'text: &\[u8\], (at|root|pattern|member|range): usize'
# 6: a count beside a buffer
count 6a '^    (pub(\(crate\))? )?(len|held|length|count|used|given): usize,'
count 6b '^    (pub(\(crate\))? )?\w+: \[(u8|Record); [0-9]+\],'
# 7: functions that choose by the case of their own type which function to call
count 7a 'dyn |: fn\('
count 7b '^ +match self'
# 8: lines of proofs, answers
printf '%-4s %4s\n' 8a "$(cat $(find crates -path '*/out' -prune -o -path '*/proofs/*' -name '*.antt' -print) | wc -l)"
printf '%-4s %4s\n' 8b "$(cat $(find crates -path '*/out' -prune -o -path '*/proofs/*' -name '*.antt' -print) | grep -cE '^pub [^ ]+ : goal\.|^abbrev pub (invariant|decreases)')"
