#!/bin/sh
# Counts the places that docs/DESIGN-PASS.md speaks of, in src/ at a commit: tools/places.sh COMMIT; with `list` after it, lists them.
commit=${1:-HEAD}
list=${2:-}
show() {
    name=$1
    shift
    lines=$(git grep -nE "$@" "$commit" -- 'crates/*.rt' | cut -d: -f2- | grep -vE '^[^:]*:[0-9]+: *//')
    printf '%-42s %s\n' "$name" "$(printf '%s' "$lines" | grep -c .)"
    if [ -n "$list" ] && [ -n "$lines" ]; then printf '%s\n' "$lines" | sed 's/^/    /'; fi
}
show '1 enums of our own' -e '^(pub )?enum '
show '1 a number for a refusal' -e 'fn (ground|ground_of|fed)\b' -e 'fn place\(self'
show '1 flags' -e '^    (pub |pub\(crate\) )?[a-z_]+: bool,'
show '2 codes of a kind' -e 'fn (code|code_of|kind_of|kind_by)\b' -e 'Kind::(Local|Send|Receive) => [0-9]' -e '[0-9_] => (Ok\()?Kind::'
show '3 loops by an index' -e '^ *while ' -e '^ *for [a-z_]+ in .*\.\.'
show '4 a match for a library method' -e '(Ok|Some|Err)\([a-z_]+\) => \*?[a-z_]+,' -e 'Err\(_\) => ' -e 'None => 0'
show '4 a comparison by hand' -e '\.post == other' -e 'if let (Kind|Outcome)::'
show '4 numbers cut or put together by hand' -e '[%*/] (256|65536|4294967296|281474976710656|0x1_0000[_0]*|MARK)\b' -e '\bMARK \+'
show '4 printing by hand' -e 'fn (word_of|text|line_of)\b' -e 'println!\(rt; "refused'
show '5 the premise on a history, written out' -e 'Stands P.rule K.sound K.meaning'
show '5 the length of a vector' -e 'length (result|vector)\.entries ≡ 64'
show '5 a record that no ground refuses' -e '«record» ≡ record_of b'
show '5 a draft by its three parts' -e 'entry\.post [a-z.]*entry\.header'
show '5 tests of a barred station' -e 'if self\.barred'
show '5 turns with answers' -e 'answers(_a|_b)?: &mut \[Answer\]'
show '6 arrays in a struct' -e '^    (pub |pub\(crate\) )?[a-z_]+: \['
show '7 switches and tables of functions' -e 'match (turn|by)\b' -e 'dyn [A-Z]' -e ': fn\('
printf '%-42s %s\n' '8 lines of proofs' "$(git grep -hc '' "$commit" -- 'crates/*/proofs/*.antt' | paste -sd+ - | bc)"
printf '%-42s %s\n' '8 files of answers' "$(git ls-tree -r --name-only "$commit" -- crates | grep -c 'Answers.antt$')"
