#!/usr/bin/env bash
# Counts, in the sources of a commit (of the working tree where none is named), the places that docs/DESIGN-PASS.md speaks of: one line a count.
cd "$(dirname "$0")/.." || exit 1
commit=${1:-}
# lines PATTERN: the lines of the sources that match.
lines() {
    git grep -hnE "$1" $commit -- 'crates/*/src/*.rt' | wc -l
}
echo "1  own enums of answers, and cases for none             $(lines '^ *(pub )?enum (Check|Outcome|Element|Masked|Verdict)\b|^ +(Unreadable|Unknown),')"
echo "1  their cases named in the code                        $(lines '\b(Check|Outcome|Element|Masked|Verdict)::|(Message::Unreadable|Word::Unknown)\b')"
echo "1  refusals by a kind and a number                      $(lines 'Refusal::[A-Z][a-z]+\([0-9n]+\)|refusal::(buffer|pool|message)\([0-9]+\)')"
echo "1  a role or a kind of message by a bare numeral        $(lines '\brole (==|!=|<|<=) [0-9]|[0-9] < master\.role|part\[3\] == [0-9]|pool_state::write\([0-9]|role_sending\(master, [0-9]|^ +[0-9]( \| [0-9])* (if .*)?=> .*(Message|waiting|alone)|(masters|Cabinet)::new\([03]\)')"
echo "1  a number or a length that says that there is none    $(lines '^fn (digit|hex)\(|fn decimal\(text: &\[u8\]|number == 0|(size_of\(&item\)|message\(\)\.len\(\)) == 2|answer (!=|==) 0')"
echo "3  loops that are no for                                $(lines '^ *(while|loop)\b')"
echo "4  conversion, equality, printing by hand-written functions $(lines '^ *(pub )?fn (wide|index|same|small|unchanged|text|count|put|held|master|number_bytes|state_bytes|bytes|masked_number|outcome_number|refusal_number)\((x|b|a|buffer|high|rt|n|master|self|answer|refusal)\b')"
echo "4  lines that put bytes together or take them apart by 256    $(lines '/ 256|% 256|\* 256|256 \*|16777216|/ 65536')"
echo "6  buffers of a computed size, cut by a length beside   $(lines '\[0?u8; (11008|16384|LINE|SCRIPT|PATH|CHUNK)\]')"
echo "7  a number that says which step to run                 $(lines '\bkind == [0-9]')"
echo "8  lines of answers and invariants                      $(git grep -hE '' $commit -- 'crates/*/proofs/*/*.antt' | wc -l)"
echo "8  lines of lemmas                                      $(git grep -hE '' $commit -- 'crates/*/proofs/*.antt' ':!crates/*/proofs/*/*' | wc -l)"
