#!/usr/bin/env bash
# Counts places in src/ where an older form of code may stand. docs/DESIGN-PASS.md says what each count means and which
# of the places are kept. Tests are left out. `-l` lists the places.
set -euo pipefail
cd "$(dirname "$0")/.."

files=$(git ls-files 'crates/*/src/*.rt' | grep -v '/tests\.rt$')

places() {
    local title=$1 pattern=$2 found
    # shellcheck disable=SC2086
    found=$(grep -nE -e "$pattern" $files || true)
    printf '%4d  %s\n' "$(printf '%s' "$found" | grep -c '' || true)" "$title"
    if [ "${list:-}" = yes ]; then printf '%s\n' "$found" | sed 's/^/        /'; fi
}

[ "${1:-}" = -l ] && list=yes
places '1  an error in an Option, an error taken apart by hand, a number for a kind' '-> Option<(Unfit|Decline|[A-Za-z]*Error)>|Err\(_\) =>|Some\(reason\) =>|=> Err\(AllocError\)|kind: u[0-9]+'
places '2  functions of which two may be twins' 'fn [a-z]*_?(allowed|quorum|quorums|grow|shrink|largest_allowed|smallest_quorum|counting|sites|same|union|common)\b'
places '3  loops' '^ *(for|while|loop)\b'
places '4  equality, order, conversion and printing' 'fn (same|eq|ne|cmp|partial_cmp|clone|from|try_from|fmt|number|explain|reason_in_words|declined|line_of_set|lines_of_sets|name_of_sites)\b|push_str'
places '5  one of the three facts about a system that go together' 'S\.QuorumSystem\.(stations|allowed|quorum) system\.now'
places '5  parameters that go together' 'sites: &\[u8\], n: usize|n: usize, sites'
places '6  a buffer of fixed length' ': \[[A-Za-z0-9]+; *[A-Z0-9_]+\]'
places '7  a switch on which of two families is meant' 'match family'
