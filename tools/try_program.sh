#!/usr/bin/env bash
# try_program.sh [PROGRAM]: runs the program over a folder and layers that configurations name, in a temporary folder, as a user
# would, and compares status, output and the line of a refusal. PROGRAM is crates/overlay_tool/out/overlay_tool, which `rt run` in
# crates/overlay_tool makes. It takes seconds, and needs python3 and a free port on 127.0.0.1.
set -u
cd "$(dirname "$0")/.." || exit 1
top=$PWD
program=$(realpath "${1:-crates/overlay_tool/out/overlay_tool}") || exit 1
folder=$(mktemp -d) || exit 1
server=
trap '[ -n "$server" ] && kill "$server" 2> /dev/null; rm -rf "$folder"' EXIT
cd "$folder" || exit 1
failed=0

# check STATUS PRINTED REFUSED ARGUMENT..: what a run over `input` answers; PRINTED is a file or a text without its last line end
check() {
  local status=$1 printed=$2 refused=$3
  shift 3
  "$program" "$@" < input > printed 2> refused
  local got=$?
  if [ -f "$printed" ]; then cp "$printed" wanted; elif [ -n "$printed" ]; then printf '%s\n' "$printed" > wanted; else : > wanted; fi
  if [ -n "$refused" ]; then printf 'refused: %s\n' "$refused" > line; else : > line; fi
  if [ $got != "$status" ] || ! cmp -s printed wanted || ! cmp -s refused line; then
    echo "FAILED: $*: status $got, '$(head -c 100 printed | tr -d '\0')', '$(cat refused)'"
    failed=$((failed + 1))
  fi
}

: > input
first=11111111-1111-1111-1111-111111111111
second=22222222-2222-2222-2222-222222222222
python3 -c 'import sys; sys.stdout.buffer.write(bytes(512) + b"a" * 512 + b"b" * 512 + bytes(512))' > first.raw
python3 -c 'import sys; sys.stdout.buffer.write(bytes(512) + b"a" * 512 + bytes(1024))' > second.raw
"$top/tools/make_layer.py" first.raw first.layer --uuid $first > made
"$top/tools/make_layer.py" second.raw second.layer --over first.raw --parent $first --uuid $second > made

# main's own refusals
echo '{"disk":"d","lanes":0}' > bad.json
check 2 '' 'usage' --config
check 2 '' 'config file' --config missing.json stack
check 2 '' 'config file' --config . stack
check 2 '' 'config' --config bad.json stack
check 2 '' 'config' --config first.layer stack
check 2 '' 'usage'
check 2 '' 'usage' --config=bad.json stack
check 2 '' 'usage' stack --config bad.json
check 3 '' 'stack empty' stack
check 3 '' '' export
check 2 '' '' export x
cp first.layer input
check 0 first.raw '' flatten --stdin
cp first.raw input
check 3 '' 'layer 0: short' flatten --stdin
# one byte more than it takes, in a file with a hole
truncate -s $(((1 << 30) + 1)) input
check 6 '' 'too long' flatten --stdin
: > input

# a folder without layers
mkdir plain
echo '{"disk":"plain"}' > plain.json
check 3 '' 'no image' --config plain.json read 0 1
check 6 '' 'no size' --config plain.json create
check 0 'created sectors 8 layers 0' '' --config plain.json create --sectors=8
check 6 '' 'image exists' --config plain.json create --sectors 8
python3 -c 'import sys; sys.stdout.buffer.write(b"c" * 1024)' > input
check 0 'wrote 3 2' '' --config plain.json write 3
check 6 '' 'out of range' --config plain.json write 7
check 2 '' 'usage' --config plain.json read 0 x
printf c > input
check 6 '' 'not whole sectors' --config plain.json write 3
: > input
check 0 'zeroed 4 1' '' --config plain.json zero 4 1
python3 -c 'import sys; sys.stdout.buffer.write(bytes(1536) + b"c" * 512 + bytes(2048))' > plain.raw
check 0 plain.raw '' --config plain.json read 0 8
echo '{"disk":"nowhere"}' > nowhere.json
check 4 '' 'disk fault' --config nowhere.json create --sectors 8

# grown, committed, swept
third=33333333-3333-3333-3333-333333333333
check 0 'grown 16' '' --config plain.json grow 16
check 6 '' 'not larger 16' --config plain.json grow 16
check 2 '' 'usage' --config plain.json commit
check 0 "committed $third layer 0 bytes 12288" '' --config plain.json commit $third
check 6 '' 'uuid twice' --config plain.json commit $third
check 0 'swept 1' '' --config plain.json sweep
head -c 4096 /dev/zero | cat plain.raw - > grown.raw
check 0 grown.raw '' --config plain.json read 0 16
mkdir next
echo '{"disk":"next","lowers":{"files":["plain/sealed-0"]}}' > next.json
printf '0 %s sectors 16 rows 2\n' $third > sealed.text
check 0 sealed.text '' --config next.json stack
check 0 grown.raw '' --config next.json flatten

# layers in files
mkdir over
echo '{"disk":"over","lowers":{"files":["first.layer","second.layer"]}}' > over.json
printf 'layer 0\nuuid %s\nparent none\nsectors 4\nrows 3\nindex 5120\ntag -\n' $first > head.text
check 0 head.text '' --config over.json info 0
check 6 '' 'no layer' --config over.json info 2
printf '0 %s sectors 4 rows 3\n1 %s sectors 4 rows 1\n' $first $second > stack.text
check 0 stack.text '' --config over.json stack
check 0 second.raw '' --config over.json flatten
check 0 'created sectors 4 layers 2' '' --config over.json create
check 0 second.raw '' --config over.json read 0 4
head -c 512 plain.raw > input
check 0 'wrote 1 1' '' --config over.json write 1
: > input
head -c 2048 /dev/zero > zeros.raw
check 0 zeros.raw '' --config over.json read 0 4
check 0 second.raw '' --config over.json flatten
echo '{"disk":"over","lowers":{"files":["second.layer","first.layer"]}}' > turned.json
check 3 '' 'layer 0 parent' --config turned.json stack
echo '{"disk":"over","lowers":{"files":["first.raw"]}}' > raw.json
check 3 '' 'layer 0: short' --config raw.json flatten
echo '{"disk":"over","lowers":{"files":["gone.layer"]}}' > gone.json
check 4 '' 'shelf fault' --config gone.json flatten

# the same layers from a server that answers range requests
cat > serve.py << 'PYTHON'
import http.server, re
class Ranges(http.server.BaseHTTPRequestHandler):
    protocol_version = "HTTP/1.1"
    def do_GET(self):
        with open("." + self.path, "rb") as file:
            whole = file.read()
        first, last = map(int, re.fullmatch(r"bytes=(\d+)-(\d+)", self.headers["Range"]).groups())
        last = min(last, len(whole) - 1)
        self.send_response(206)
        self.send_header("Content-Range", f"bytes {first}-{last}/{len(whole)}")
        self.send_header("Content-Length", str(last - first + 1))
        self.end_headers()
        self.wfile.write(whole[first:last + 1])
    def log_message(self, *words):
        pass
server = http.server.ThreadingHTTPServer(("127.0.0.1", 0), Ranges)
with open("port.new", "w") as file:
    file.write(str(server.server_address[1]))
import os
os.rename("port.new", "port")
server.serve_forever()
PYTHON
python3 serve.py &
server=$!
for _ in $(seq 100); do [ -f port ] && break; sleep 0.1; done
mkdir far
echo "{\"disk\":\"far\",\"lowers\":{\"host\":\"127.0.0.1:$(cat port)\",\"paths\":[\"/first.layer\",\"/second.layer\"]}}" > far.json
check 0 stack.text '' --config far.json stack
check 0 second.raw '' --config far.json flatten
check 0 'created sectors 4 layers 2' '' --config far.json create
check 0 second.raw '' --config far.json read 0 4
kill "$server"
wait "$server" 2> /dev/null
server=
check 4 '' 'shelf fault' --config far.json stack

[ $failed = 0 ] && echo "the program answers as it should"
exit $((failed > 0))
