#!/usr/bin/env bash
# wrong_bodies.sh NAME..: tries the edits of crates/NAME/wrong-bodies/ in a copy of the repository; the prover must refuse each.
# They stand beside those of must-fail/, which every run of the gate tries. Run it for each crate that you change. With no name it
# tries those of all crates, which takes some hours of processors. It changes nothing here.
set -u
cd "$(dirname "$0")/.." || exit 1
[ $# -gt 0 ] || set -- $(cd crates && ls -d */ | tr -d /)
copy=$(mktemp -d) || exit 1
trap 'rm -rf "$copy"' EXIT
git ls-files -co --exclude-standard -- crates crates.txt HANDLES | tar -cf - -T - | tar -xf - -C "$copy"
rm -rf "$copy"/crates/*/must-fail
names=()
for name in "$@"; do
  [ -d "$copy/crates/$name/wrong-bodies" ] || continue
  mv "$copy/crates/$name/wrong-bodies" "$copy/crates/$name/must-fail"
  names+=("$name")
done
[ ${#names[@]} -gt 0 ] || { echo "no edits"; exit 0; }
# as the gate does it, so that what is proved already is not proved again
cd "$copy" && git init -q && git add -A && git -c user.name=copy -c user.email=copy commit -qm copy && rt ci "${names[@]}"
