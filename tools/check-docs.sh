#!/bin/sh
# The pages name what is there: docs/ARCHITECTURE.md each crate of crates.txt, docs/DEFINITIONS.md each file of definitions by
# its path and no other, docs/LAYERS.md each boundary that code beside tests crosses; and each relative link leads to a file.
# No definition in a specs/ rests on a helper of contracts, in a specs/parts/.
cd "$(dirname "$0")/.." || exit 1
wrong=0
say() {
    echo "$1"
    wrong=1
}
crates=$(sed -n 's/^\([a-z_0-9]*\)\( [a-z_]*=[^:]*\)*:.*/\1/p' crates.txt)
for crate in $crates; do
    grep -q "\`$crate\`" docs/ARCHITECTURE.md || say "docs/ARCHITECTURE.md does not name the crate $crate"
    for file in crates/"$crate"/specs/*.antt crates/"$crate"/specs/parts/*.antt; do
        case $file in */specs/Lib.antt | */specs/parts.antt) continue ;; esac
        [ -e "$file" ] || continue
        grep -qF "$file" docs/DEFINITIONS.md || say "docs/DEFINITIONS.md does not name $file"
    done
    case $crate in *_examples) continue ;; esac
    for lower in $crates; do
        [ "$lower" = "$crate" ] && continue
        cat crates/"$crate"/src/*.rt | grep -v '^ *//' | grep -q "^ *\(pub \)\{0,1\}use $lower::\|[^a-z_:.]$lower::" || continue
        grep -q "^| \`$lower\` to \(all |\|[^|]*\`$crate\`\)" docs/LAYERS.md ||
            say "docs/LAYERS.md does not name the boundary from $lower to $crate"
    done
done
for file in $(grep -o 'crates/[A-Za-z_0-9/]*\.antt' docs/DEFINITIONS.md); do
    [ -e "$file" ] || say "docs/DEFINITIONS.md names $file, which is not there"
done
for file in $(grep -l '^ *use Rattle\.[a-z_0-9]*\.specs\.parts\.' crates/*/specs/*.antt); do
    say "$file rests on a helper of contracts: $(grep -m 1 -o 'Rattle\.[a-z_0-9]*\.specs\.parts\.[A-Za-z]*' "$file")"
done
for page in README.md CONTRIBUTING.md docs/*.md; do
    for link in $(grep -o '](\([^)]*\))' "$page" | sed 's/^](//; s/)$//; s/#.*//'); do
        case $link in *://*) continue ;; esac
        [ -e "$(dirname "$page")/$link" ] || say "$page has a link to $link, which is not there"
    done
done
exit $wrong
