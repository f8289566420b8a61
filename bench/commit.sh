#!/usr/bin/env bash
# commit.sh [PROGRAM]: times the commit of an image into which 256 MiB were written, beside `cp` and `sync` of the same bytes in the
# same folder. Three rounds, seconds each; caches of the system are warm.
# It needs python3 and 2 GB of temporary room; MIB is the size (256 where it is not said, a multiple of 32). PROGRAM is
# crates/overlay_tool/out/overlay_tool, as `rt run` leaves it, where none is named.
set -eu
top=$(cd "$(dirname "$0")/.." && pwd)
program=$(realpath "${1:-$top/crates/overlay_tool/out/overlay_tool}")
[ -x "$program" ] || { echo "run 'rt run' in crates/overlay_tool first"; exit 1; }
work=$(mktemp -d)
trap 'rm -rf "$work"' EXIT
cd "$work"
mib=${MIB:-256}
pieces=$((mib / 32))

python3 -c "
import random
with open('bytes.raw', 'wb') as it:
    draw = random.Random(1)
    for _ in range($pieces):
        it.write(draw.randbytes(32 << 20))"

now() { date +%s.%N; }
since() { python3 -c "print(f'{$(now) - $1:.2f}')"; }

printf '%-10s%12s%16s\n' 'round' 'commit, s' 'cp and sync, s'
for round in 1 2 3; do
  mkdir disk
  echo '{"disk":"disk","lowers":{"files":[]}}' > image.json
  "$program" --config image.json create --sectors $((mib * 2048)) > said
  for piece in $(seq 0 $((pieces - 1))); do
    dd if=bytes.raw bs=32M skip="$piece" count=1 status=none | "$program" --config image.json write $((piece * 65536)) > said
  done
  sync
  from=$(now)
  "$program" --config image.json commit "$round$round$round$round$round$round$round$round-1111-1111-1111-111111111111" > said
  commit=$(since "$from")
  from=$(now)
  cp bytes.raw disk/copy
  sync disk/copy
  copy=$(since "$from")
  printf '%-10s%12s%16s\n' "$round" "$commit" "$copy"
  rm -rf disk
done
