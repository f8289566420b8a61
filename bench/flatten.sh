#!/usr/bin/env bash
# flatten.sh [PROGRAM]: times `flatten --stdin` of a layer of nearly 1 GiB with 20,000 rows, read from a file, and `flatten` of the
# same layer from a folder, beside `cat` moving the same bytes from that file through a pipe.
# The layer is made in a temporary folder and removed. It needs python3, and the program as `rt run` leaves it.
set -eu
cd "$(dirname "$0")/.."
program=$(realpath -m "${1:-crates/overlay_tool/out/overlay_tool}")
[ -x "$program" ] || { echo "run 'rt run' in crates/overlay_tool first"; exit 1; }
folder=$(mktemp -d)
trap 'rm -rf "$folder"' EXIT

python3 - "$folder/layer" <<'PYTHON'
# Rows of 104 sectors that stand side by side, so that nearly the whole image is data.
import struct, sys
sectors, rows = 2 ** 21 - 40960, 20000
count = sectors // rows
index_at = 4096 + 512 * count * rows
def block(flags):
    head = b'OBDLAYR1' + struct.pack('<IIQQQ', 1, flags, index_at, rows, sectors) + b'\x11' * 16
    return head.ljust(4096, b'\0')
with open(sys.argv[1], 'wb') as file:
    file.write(block(7))
    for number in range(rows):
        file.write(bytes([number % 251 + 1]) * (512 * count))
    for number in range(rows):
        file.write(struct.pack('<QQ', number * count + (count << 50), 8 + number * count))
    file.write(b'\0' * (-file.tell() % 4096))
    file.write(block(6))
PYTHON

echo "layer: $(stat -c %s "$folder/layer") bytes"
echo '{"disk": "'"$folder"'", "lowers": {"files": ["'"$folder/layer"'"]}}' > "$folder/config"
for run in 1 2 3; do
  for name in cat stdin folder; do
    python3 - "$name" "$program" "$folder/layer" "$folder/config" <<'PYTHON'
import resource, subprocess, sys, time
name, program, layer, config = sys.argv[1:]
start = time.monotonic()
with open(layer, 'rb') as file, open('/dev/null', 'wb') as null:
    if name == 'cat':
        feed = subprocess.Popen(['cat'], stdin=file, stdout=subprocess.PIPE)
        run = subprocess.Popen(['cat'], stdin=feed.stdout, stdout=null)
        feed.stdout.close()
        feed.wait()
    elif name == 'stdin':
        run = subprocess.Popen([program, 'flatten', '--stdin'], stdin=file, stdout=null)
    else:
        run = subprocess.Popen([program, '--config', config, 'flatten'], stdin=subprocess.DEVNULL, stdout=null)
    status = run.wait()
peak = resource.getrusage(resource.RUSAGE_CHILDREN).ru_maxrss // 1024
print(f'{name}: {time.monotonic() - start:.2f} s, peak {peak} MiB, status {status}')
PYTHON
  done
done
