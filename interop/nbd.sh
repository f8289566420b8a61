#!/usr/bin/env bash
# nbd.sh [PROGRAM]: exports an image over two layers and drives it with nbdinfo, nbdcopy, qemu-img, qemu-io and fio, as their users
# would; commits over the control's stream in the middle of it; kills the server and finds every write that was flushed.
# It installs libnbd-bin, qemu-utils and fio where they are missing (as root, from Debian's packages), needs python3, and takes a
# minute. PROGRAM is crates/overlay_tool/out/overlay_tool, as `rt run` leaves it, where none is named. MIB is the image's size, 32 or
# more; with NO_COMMIT=1 nothing is asked over the control's stream.
set -u
top=$(cd "$(dirname "$0")/.." && pwd)
program=$(realpath "${1:-$top/crates/overlay_tool/out/overlay_tool}")
[ -x "$program" ] || { echo "run 'rt run' in crates/overlay_tool first"; exit 1; }
updated=
for tool in nbdinfo:libnbd-bin nbdcopy:libnbd-bin qemu-img:qemu-utils qemu-io:qemu-utils fio:fio; do
  command -v "${tool%%:*}" > /dev/null && continue
  [ -n "$updated" ] || apt-get update -qq
  updated=yes
  apt-get install -y -qq "${tool##*:}" > /dev/null || { echo "no ${tool%%:*}"; exit 1; }
done
work=$(mktemp -d)
server=
stop() { [ -n "$server" ] && { kill -9 "$server" 2> /dev/null; wait "$server" 2> /dev/null; }; server=; }
trap 'stop; rm -rf "$work"' EXIT
cd "$work" || exit 1
failed=0
mib=${MIB:-64}

# says NAME COMMAND..: the command succeeds
says() {
  local name=$1
  shift
  if "$@" > out 2> err; then echo "ok      $name"; else
    echo "FAILED  $name: $(tail -n 2 err | tr '\n' ' ')"
    failed=$((failed + 1))
  fi
}

free_port() { python3 -c 'import socket; s = socket.socket(); s.bind(("127.0.0.1", 0)); print(s.getsockname()[1])'; }
port=$(free_port)
control=$(free_port)
lanes=6
uri=nbd://127.0.0.1:$port/disk

# start: starts the server, and waits until its lanes serve. The control takes one connection, so it is not tried.
start() {
  "$program" --config image.json export 2> refused &
  server=$!
  for _ in $(seq 100); do
    nbdinfo --size "$uri" > size 2> err && return
    kill -0 $server 2> /dev/null || break
    sleep 0.05
  done
  return 1
}

# ask LINE..: sends control lines, and prints the answers
ask() {
  python3 - "$control" "$@" <<'PYTHON'
import socket, sys
with socket.create_connection(("127.0.0.1", int(sys.argv[1]))) as stream:
    lines = stream.makefile("rw", newline="\n")
    for line in sys.argv[2:]:
        lines.write(line + "\n")
        lines.flush()
        print(lines.readline(), end="")
PYTHON
}

# Two layers and an image over them.
python3 - "$mib" <<'PYTHON'
import random, sys
draw = random.Random(1)
mib = int(sys.argv[1]) << 20
lower = bytearray(mib)
for at in range(0, len(lower), 65536):
    if draw.random() < 0.3:
        lower[at:at + 40960] = draw.randbytes(40960)
upper = bytearray(lower)
for _ in range(300):
    at = 512 * draw.randrange(len(upper) // 512 - 64)
    upper[at:at + 512 * 24] = bytes(512 * 24) if draw.random() < 0.3 else draw.randbytes(512 * 24)
open("lower.raw", "wb").write(lower)
open("upper.raw", "wb").write(upper)
open("new.raw", "wb").write(bytes(upper[:mib // 4]) + draw.randbytes(mib // 4) + bytes(mib // 2))
PYTHON
own=11111111-1111-1111-1111-111111111111
"$top/tools/make_layer.py" lower.raw lower.layer --uuid $own > made
"$top/tools/make_layer.py" upper.raw upper.layer --over lower.raw --parent $own > made
mkdir disk
cat > image.json <<JSON
{"disk": "disk", "lowers": {"files": ["lower.layer", "upper.layer"]}, "export": "disk", "lanes": $lanes,
 "listen": "127.0.0.1:$port", "control": "127.0.0.1:$control"}
JSON
says "create" "$program" --config image.json create

says "start" start
says "nbdinfo: size" grep -qx $((mib << 20)) size
says "nbdinfo: list and export" nbdinfo --list "nbd://127.0.0.1:$port"
says "nbdinfo: an unknown name is refused" bash -c "! nbdinfo nbd://127.0.0.1:$port/other"
says "nbdcopy: read" nbdcopy "$uri" read.raw
says "nbdcopy: what was read" cmp read.raw upper.raw
says "nbdcopy: write" nbdcopy --flush new.raw "$uri"
says "qemu-img info" qemu-img info "$uri"
says "qemu-img convert" qemu-img convert -f raw -O raw "$uri" converted.raw
says "qemu-img convert: what was read" cmp converted.raw new.raw
says "qemu-img compare" qemu-img compare -f raw -F raw "$uri" new.raw
says "qemu-io: write with FUA, discard, zeroes" qemu-io -f raw -c 'write -f -P 0x41 1M 64k' -c 'discard 2M 1M' -c 'write -z 4M 1M' \
  -c 'write -P 0x42 5M 4k' -c 'flush' "$uri"
says "qemu-io: what was written" qemu-io -f raw -c 'read -P 0x41 1M 64k' -c 'read -P 0 2M 1M' -c 'read -P 0 4M 1M' -c 'read -P 0x42 5M 4k' "$uri"
fio --name=a --ioengine=nbd --uri="$uri" --rw=randwrite --bs=4k --offset=$((mib / 4))m --size=$((mib / 8))m --iodepth=8 --verify=crc32c --loops=4 > fio.a 2>&1 &
first=$!
fio --name=b --ioengine=nbd --uri="$uri" --rw=randwrite --bs=64k --offset=$((mib / 2))m --size=$((mib / 4))m --iodepth=4 --verify=crc32c --loops=4 > fio.b 2>&1 &
second=$!
sleep 0.3
if [ -n "${NO_COMMIT:-}" ]; then echo "left    control: status, commit"; else
  says "control: status, commit in the middle of it, status" ask status "commit 22222222-2222-2222-2222-222222222222" status
  cp out control.out
  says "control: committed" grep -qx "committed 22222222-2222-2222-2222-222222222222" control.out
fi
says "fio: verify, 4 KiB" wait $first
says "fio: verify beside it, 64 KiB" wait $second
says "qemu-io: what was written stands after the commit" qemu-io -f raw -c 'read -P 0x41 1M 64k' -c 'read -P 0 2M 1M' -c 'read -P 0x42 5M 4k' "$uri"

# Every write that was flushed is there after the server was killed.
says "qemu-io: a flushed write" qemu-io -f raw -c 'write -P 0x43 6M 1M' -c 'flush' "$uri"
says "nbdcopy: what is flushed" nbdcopy "$uri" flushed.raw
qemu-io -f raw -c 'write -P 0x44 8M 1M' "$uri" > out 2>&1
stop
says "start after kill -9" start
says "qemu-io: every flushed write is found" qemu-io -f raw -c 'read -P 0x43 6M 1M' -c 'read -P 0x41 1M 64k' -c 'read -P 0 2M 1M' \
  -c 'read -P 0x42 5M 4k' "$uri"
says "nbdcopy: read after kill -9" nbdcopy "$uri" found.raw
says "found: all below the write without a flush" cmp -n $((8 << 20)) flushed.raw found.raw
says "found: all above it" cmp -i $((9 << 20)) flushed.raw found.raw
stop

# An address that is taken.
python3 - "$port" <<'PYTHON' &
import os, socket, sys, time
s = socket.socket()
s.setsockopt(socket.SOL_SOCKET, socket.SO_REUSEADDR, 1)
for _ in range(100):
    try:
        s.bind(("127.0.0.1", int(sys.argv[1])))
        break
    except OSError:
        time.sleep(0.05)
s.listen()
os.mkdir("taken")
time.sleep(60)
PYTHON
server=$!
for _ in $(seq 100); do [ -d taken ] && break; sleep 0.1; done
taken() {
  timeout 30 "$program" --config image.json export 2> refused
  [ $? = 4 ] && [ "$(cat refused)" = "refused: listen" ]
}
says "an address that is taken" taken
stop

[ $failed = 0 ] && echo "clients are served as they should be"
exit $((failed > 0))
