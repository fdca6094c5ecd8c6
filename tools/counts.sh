#!/bin/sh
# Counts the places of docs/DESIGN-PASS.md, crate by crate: run at the top of the repository.
set -eu

p() {
    printf '%s:' "$1"
    shift
    for c in $(sed 's/:.*//; s/#.*//' crates.txt | awk '{print $1}'); do
        n=$(cat crates/"$c"/src/*.rt | grep -cE "$@" || true)
        [ "$n" = 0 ] || printf ' %s %s' "$c" "$n"
    done
    printf ' | all %s\n' "$(cat crates/*/src/*.rt | grep -cE "$@" || true)"
}

p '1a own enums of the shape of Option' 'Nothing,$|NoRoom,$|NoOperations,$'
p '1b uses of them, and of Step' '(Word|Depth|Found|Said|Printed|Written|Step)::'
p '1c a code in a field or parameter' '\bcode: (u32|[0-9a-z.]+),?$'
p '1d a refusal by its number' 'refuse\(t, [0-9]+\)|refused\([0-9]+,|Refuse\([0-9]+\)|code: [0-9]+|answer\((0|30|41|code),|Err\([0-9]+\)|^ +return [1-5];$'
p '1e a test on a code' '\.code (!=|==|<|>)|code (!=|==|<=|<) [0-9]|1 <= code'
p '1f kinds by number' 'kind (==|!=) [0-9]|^ +[1-5] => |=> [1-5],|=> 0,$'
tools/twins.py | tail -n 1
p '3a while' '^ *while '
p '3b loop' '^ *loop '
p '4a conversions by hand' 'fn (kind_of|argument_of|stack_op|default|pre_amsterdam|equal|same|copy|fill|part|least|most|less|wide|narrow|size|word_at|read_op|decimal_len)\b'
p '4b printing by hand' 'fn (put|paste|print)[a-z_]*\('
p '5a a stack as its words and a length' 'raw: &(mut )?(.a )?\[u32; 1024\]'
p '5b the slots as words, filled and first' '\bfilled: usize|spilled: &|spill: &'
p '5c current and target' "current: &('a )?\[u32\]"
p '5d the two limits apart' 'max_dup(_depth)?: u8|dups: u8'
p '6a a buffer and a place in it' 'out: &mut \[u8\], at: usize|^ +at: usize,$'
p '7 a switch on which step' 'match (choice|op|s|m|self) \{|if applies'
printf '8a lines of Invariants and Answers: %s\n' "$(find crates/*/proofs -name Answers.antt -o -path '*/proofs/*' -name Invariants.antt | xargs cat | wc -l)"
printf '8b lines of lemmas: %s\n' "$(find crates/*/proofs -maxdepth 1 -name '*.antt' | xargs cat | wc -l)"
