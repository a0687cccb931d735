#!/usr/bin/env bash
# Programs that the compiler turns down before any proof, so that they cannot be must-fail edits. Each refused/NAME.rt.txt becomes a crate
# in a copy of the sources, and compiling it has to fail for the reason in its first line, and for no other. The right program is the crate staged_use.
set -u
top=$(cd "$(dirname "$0")/.." && pwd)
bad=0
copy=$(mktemp -d)
mkdir "$copy/crates"
cp "$top/crates.txt" "$copy"
for crate in "$top"/crates/*; do
    mkdir "$copy/crates/$(basename "$crate")"
    for part in src specs; do
        [ ! -d "$crate/$part" ] || cp -r "$crate/$part" "$copy/crates/$(basename "$crate")"
    done
done
echo 'refused_case: qbf faults database calculus prefix session stages' >>"$copy/crates.txt"
mkdir -p "$copy/crates/refused_case/src"
for program in "$top"/refused/*.rt.txt; do
    name=$(basename "$program" .rt.txt)
    reason=$(sed -n '1s/^\/\/ expect: //p' "$program")
    # A test that does nothing, since a library is compiled without proof for its tests alone.
    { tail -n +2 "$program"; printf '\n#[test]\nfn compiled() {}\n'; } >"$copy/crates/refused_case/src/lib.rt"
    if (cd "$copy/crates/refused_case" && rt try --test) >"$copy/log" 2>&1; then
        echo "refused/$name: NOT REFUSED"
        bad=1
    elif [ "$(grep -c 'error\[' "$copy/log")" -eq 1 ] && grep -qF "error[$reason]" "$copy/log"; then
        echo "refused/$name: refused for $reason, as it must be"
    else
        echo "refused/$name: refused for another reason"
        tail -n 5 "$copy/log"
        bad=1
    fi
done
rm -rf "$copy"
exit $bad
