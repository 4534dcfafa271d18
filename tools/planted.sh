#!/bin/sh
# Planted bugs: applies each edit in tools/planted/CRATE/ to a copy of the repository, one at a time, and tells whether it was
# killed, by the prover or by a run of the examples, or survived. The last line counts them.
#   tools/planted.sh            all crates
#   tools/planted.sh CRATE..    some of them
# An edit has three lines, as those in must-fail/: 'file: ..', 'old: ..' (which stands once in that file), 'new: ..'.
set -u
top=$(cd "$(dirname "$0")/.." && pwd)
work=$(mktemp -d)
trap 'rm -rf "$work"' EXIT
mkdir "$work/repo"
(cd "$top" && tar cf - --exclude=out crates crates.txt examples) | (cd "$work/repo" && tar xf -)
rm -rf "$work"/repo/crates/*/must-fail
crates=${*:-$(ls "$top/tools/planted")}
for crate in $crates; do cp -r "$top/tools/planted/$crate" "$work/repo/crates/$crate/must-fail"; done
cd "$work/repo" || exit 2
# shellcheck disable=SC2086
rt must-fail $crates >"$work/log" 2>&1

# Whether a program of the changed copy still prints the accounts of these scripts.
prints() {
    program=$1
    shift
    (cd "$work/one/crates/$program" && rt run </dev/null) >/dev/null 2>&1 || return 1
    for script; do
        "$work/one/crates/$program/out/$program" <"$script" | cmp -s - "${script%.script}.account" || return 1
    done
}

# Whether both programs, with a bug that the prover cannot see, still print every account.
prints_accounts() {
    cp -r "$work/repo" "$work/one"
    edit=$work/one/crates/$1/must-fail/$2.edit
    python3 - "$edit" "$work/one/crates/$1" <<'PYTHON'
import sys
file, old, new = (line.split(": ", 1)[1] for line in open(sys.argv[1]).read().splitlines())
path = sys.argv[2] + "/" + file
text = open(path).read()
assert text.count(old) == 1
open(path, "w").write(text.replace(old, new))
PYTHON
    rm -rf "$work"/one/crates/*/must-fail
    examples=$work/one/examples
    same=0
    prints bench "$examples"/*.script || same=1
    prints twin_bench "$examples"/too_long.script "$examples"/twin/*.script || same=1
    rm -rf "$work/one"
    return $same
}

killed=0
survived=0
untried=0
for crate in $crates; do
    for edit in "$top/tools/planted/$crate"/*.edit; do
        label=$(basename "$edit" .edit)
        said=$(grep "must-fail $crate/$label.edit" "$work/log" | tail -n 1 | sed "s/.*must-fail $crate\/$label.edit:* *//")
        case $said in
            refused*)
                echo "killed $crate/$label by the proof: $(echo "$said" | sed 's/refused, as it must be: //' | cut -c1-120)"
                killed=$((killed + 1)) ;;
            NOT\ REFUSED*)
                if prints_accounts "$crate" "$label"; then
                    echo "SURVIVED $crate/$label"
                    survived=$((survived + 1))
                else
                    echo "killed $crate/$label by what stands on it: a proof above, or a run of the examples"
                    killed=$((killed + 1))
                fi ;;
            *)
                echo "NOT TRIED $crate/$label: $said"
                untried=$((untried + 1)) ;;
        esac
    done
done
echo "$killed killed, $survived survived, $untried not tried"
[ "$survived" -eq 0 ] && [ "$untried" -eq 0 ]
