#!/bin/sh
# The places of the design pass that a command can find (docs/DESIGN-PASS.md): run at the top of the repository.
cd crates || exit 1
say() { printf '\n== %s\n' "$1"; }
say '1 own enums'
grep -rnE '^\s*(pub(\([a-z]+\))? )?enum [A-Z]' */src
say '1 calls that change something and answer done or refused by a bool'
perl -0ne 'while(/fn (\w+)(?:<[^>]*>)?\(([^{;]*?&mut[^{;]*?)\)\s*->\s*bool/gs){print "$ARGV: $1\n"}' $(find */src -name '*.rt' | sort)
say '1 zeros that stand for nothing'
grep -rnE '0 (where|for none|if none|and 0)|0 for the second|offset: 0,|length: 0,' */src
say '1 numbers compared for kinds'
grep -rnE '\.number\(\) (!=|==)' */src
say '3 loops that are no for over the things themselves, and counts'
grep -rnE 'for [a-z_]+ in [^{]*\.\.|^\s*while |\+= 1;' */src
say '4 impls of equality, order, copying and conversion; methods that do the same under names of their own'
grep -rnE '^\s*impl.* (PartialEq|Eq|Ord|PartialOrd|Clone|Copy|Hash|Default|From<.*>|TryFrom<.*>) for' */src
grep -rnE 'fn (same|matches|equal|same_bytes|number|letter|of_letter|cause_of|is_right|is_name|mark_of)\b' */src
say '5 requires that stand three times or more'
grep -rhoE 'requires( [a-z_]+)? \{ .* \}$' */src | sed -E 's/requires [a-z_]+ \{/requires {/' | sort | uniq -c | sort -rn | awk '$1>=3'
say '5 ghost facts on page numbers'
grep -rnE 'ghost [a-z]+: \{.*999' */src
say '6 arrays, and lengths and places beside them'
grep -rnE '\[[^];]+; [0-9]+\]|at: usize|count: usize|len: u8' */src | grep -vE 'tests|cases'
say '7 switches on steps, tables of functions, and traits'
grep -rnE 'dyn |fn\(|Box<|: Fn' */src
grep -rnE '^\s*(pub )?trait ' */src
say '8 answers and lemma files'
find */proofs -name Answers.antt | wc -l
find */proofs -maxdepth 1 -name '*.antt' ! -name Lib.antt | wc -l
