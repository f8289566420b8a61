#!/usr/bin/env bash
# Prints what the index of 1, 16, 64 and 255 layers of 20,000 rows takes: the milliseconds of `merge`, its segments and their
# bytes, the most memory beside the layers while it is made, and the look-ups of 4 KiB a second with the pieces that each has.
# The rows have 4 KiB each, an eighth of them zeros, and are drawn all over 1 GiB, where most of them are hidden by others, or
# over 1 TiB, where nearly none is. The program is written into a copy of the repository and proved there, over what `rt check`
# left in the crates below. It needs python3.
set -eu
cd "$(dirname "$0")/.."
copy=$(mktemp -d)
trap 'rm -rf "$copy"' EXIT
git ls-files -co --exclude-standard -- crates crates.txt HANDLES | tar -cf - -T - | tar -xf - -C "$copy"
for name in sector_extent byte_fields seg_mapping lsmt_header flat_image layer_shelf sealed_layer merged_index; do
  if [ -d "crates/$name/out/rlib" ]; then
    mkdir -p "$copy/crates/$name/out"
    cp -a "crates/$name/out/rlib" "$copy/crates/$name/out/"
  fi
done
cd "$copy"
git init -q
mkdir -p crates/index_figures/src crates/index_figures/proofs/figures
echo 'index_figures: merged_index sealed_layer layer_shelf lsmt_header seg_mapping sector_extent' >> crates.txt
cat > crates/index_figures/src/main.rt <<'PROGRAM'
//! Prints what the index of a stack takes, whose layers have 20,000 rows each.
#![tactic(auto)]

ghost use Rattle.std.specs.Prelude.{◌≡◌, ◌<◌, ◌≤◌, vec_len};

use layer_shelf::{MemShelf, Shelf};
use lsmt_header::{Head, Kind, Tag, encode_block};
use merged_index::{MergedIndex, Piece, PieceWhat, merge};
use sealed_layer::{Layer, read_layer};
use sector_extent::{Bytes, CallList, Extent, FileTexts, Steps};
use seg_mapping::{Row, encode};
use std::alloc::Global;
use std::env;
use std::marker::Brand;
use std::process::ExitCode;
use std::sync::ledger::{Blank, Ledger};
use std::time::Instant;

const SECTORS: u64 = 1 << 31;
const ROWS: u64 = 20_000;
const LOOKS: u64 = 1_000_000;

fn draw(state: &mut u64, below: u64) -> u64
    requires { 0 < below }
    ensures { result < below }
{
    *state = state
        .wrapping_mul(6_364_136_223_846_793_005)
        .wrapping_add(1_442_695_040_888_963_407);
    (*state >> 33) % below
}

// Rows of 4 KiB, each at a drawn place among so many sectors; an eighth of them are zeros.
fn layer_file(alloc: Global, wide: u64, state: &mut u64) -> Option<Vec<u8>>
    requires some { 8 < wide }
    requires few { wide ≤ 107374 }
{
    let head = Head {
        version: 1,
        kind: Kind::SealedHead,
        index_at: 8_192,
        rows: ROWS,
        sectors: SECTORS,
        uuid: [0x11; 16],
        parent: [0; 16],
        tag: Tag::new(b"")?,
    };
    let end = Head {
        kind: Kind::SealedEnd,
        ..head
    };
    if !head.is_valid() || !end.is_valid() {
        return None;
    }
    let mut file = encode_block(&head).to_vec(alloc).ok()?;
    file.resize(8_192, 0).ok()?;
    for number in 0..ROWS {
        let row = Row {
            offset: number * wide + draw(state, wide - 8),
            count: 8,
            place: 8,
            zeroed: draw(state, 8) == 0,
            tag: 0,
        };
        if !row.fits() {
            return None;
        }
        file.extend_from_slice(&encode(&row)).ok()?;
    }
    file.resize(331_776, 0).ok()?;
    file.extend_from_slice(&encode_block(&end)).ok()?;
    Some(file)
}

fn drawn_layer(alloc: Global, wide: u64, state: &mut u64) -> Option<Layer>
    requires some { 8 < wide }
    requires few { wide ≤ 107374 }
{
    let file = Bytes::from_vec(layer_file(alloc, wide, state)?);
    let mut files = Vec::new(alloc);
    files.push(file).ok()?;
    let files = FileTexts::from_vec(files);
    let mut shelf = MemShelf::new(files, CallList::from_vec(Vec::new(alloc)));
    if shelf.count() == 0 {
        return None;
    }
    read_layer(alloc, &mut shelf, 0).ok()
}

// Looks up extents of 4 KiB, and says how many pieces they had.
fn looked_up<L: Ledger>(
    index: &MergedIndex,
    wide: u64,
    state: &mut u64,
    blank: Blank,
) -> Option<u64>
    requires wide { 0 < wide }
    requires few { wide ≤ 107374 }
    requires name { blank.name ≡ L.name }
    requires parts { blank.parts ≡ L.parts }
    requires some { 0 < blank.parts }
{
    let mut steps = Steps::<L>::new(blank);
    let mut out = [Piece {
        extent: Extent { at: 0, count: 0 },
        what: PieceWhat::Hole,
    }; 8];
    let mut pieces: u64 = 0;
    for _ in 0..LOOKS {
        let at = 8 * draw(state, ROWS * wide / 8);
        let found = index.find(Extent::new(at, 8)?, &mut out, &mut steps);
        pieces = pieces.wrapping_add(found.pieces as u64);
    }
    Some(pieces)
}

fn figures(rt: &HostRuntime) -> Option<()> {
    let alloc = rt.alloc();
    let mut words = env::args(rt).ok()?;
    let _program = words.next()?;
    let count = words.next()?.parse::<u64>().ok()?;
    let wide = match words.next()?.as_str() {
        "1GiB" => 104,
        "1TiB" => 107_374,
        _ => return None,
    };
    let mut state = 1;
    let mut layers = Vec::new(alloc);
    for _ in 0..count.min(255) {
        layers.push(drawn_layer(alloc, wide, &mut state)?).ok()?;
    }
    // with a third word the layers are read, and that is all
    if layers.len() > 255 || words.next().is_some() {
        return Some(());
    }
    let start = Instant::now(rt).ok()?;
    let index = merge(alloc, layers.as_slice()).ok()?;
    let merged = start.elapsed(rt).ok()?.as_millis();
    let start = Instant::now(rt).ok()?;
    let pieces = looked_up::<Brand>(&index, wide, &mut state, Blank::new(1))?;
    let looked = start.elapsed(rt).ok()?.as_millis();
    let segments = index.len();
    println!(rt; "{count} {merged} {segments} {looked} {pieces}").ok()?;
    Some(())
}

fn main(rt: HostRuntime) -> ExitCode {
    match figures(&rt) {
        Some(()) => ExitCode::SUCCESS,
        None => ExitCode::from(1),
    }
}
PROGRAM
cat > crates/index_figures/proofs/figures/Invariants.antt <<'PROOF'
use Rattle.index_figures.proofs.figures.Given as goal

abbrev pub ghosts-looked_up : goal.ghosts-looked_up
ghosts-looked_up a = record { name = a.blank.name; parts = a.blank.parts }
PROOF
cd crates/index_figures
rt run -- 1 1GiB > log 2>&1 || { tail -20 log; exit 1; }

python3 - out/index_figures <<'PYTHON'
import subprocess, sys
# The peak is the largest of all children's, so each run has a python of its own.
one = '''
import resource, subprocess, sys
out = subprocess.run(sys.argv[1:], check=True, capture_output=True, text=True).stdout
print(resource.getrusage(resource.RUSAGE_CHILDREN).ru_maxrss, out)
'''
def run(*words):
    command = [sys.executable, '-c', one, sys.argv[1], *words]
    peak, *line = subprocess.run(command, check=True, capture_output=True, text=True).stdout.split()
    return int(peak), list(map(int, line))
print('image  layers  merge ms  segments      bytes  KiB beside layers  look-ups a second  pieces each')
for image in ('1GiB', '1TiB'):
    for count in ('1', '16', '64', '255'):
        below, _ = run(count, image, 'layers')
        peak, (layers, merged, segments, looked, pieces) = run(count, image)
        print(f'{image:5}  {layers:6}  {merged:8}  {segments:8}  {24 * segments:9}  {peak - below:17}  '
              f'{10 ** 9 // max(looked, 1):17}  {pieces / 10 ** 6:11.2f}')
PYTHON
