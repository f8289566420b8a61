#!/usr/bin/env bash
# http.sh [PROGRAM]: flattens a stack of two layers that nginx serves, and that a small server serves well and badly.
# A server that ignores the range, sends chunked, ends early or says another length has to give `refused: shelf fault`, status 4.
# It needs python3 and nginx, and installs nginx from Debian's packages where there is none and it is run as root.
# PROGRAM is crates/overlay_tool/out/overlay_tool, as `rt run` leaves it, where none is named.
set -u
top=$(cd "$(dirname "$0")/.." && pwd)
program=${1:-$top/crates/overlay_tool/out/overlay_tool}
[ -x "$program" ] || { echo "run 'rt run' in crates/overlay_tool first"; exit 1; }
export PATH=$PATH:/usr/sbin
if ! command -v nginx >/dev/null; then
  { apt-get update && DEBIAN_FRONTEND=noninteractive apt-get install -y --no-install-recommends nginx; } >/dev/null 2>&1
  command -v nginx >/dev/null || { echo "install nginx first"; exit 1; }
fi
work=$(mktemp -d)
chmod 755 "$work"
started=()
end() {
  for process in "${started[@]}"; do kill "$process" 2>/dev/null; wait "$process" 2>/dev/null; done
  rm -rf "$work"
}
trap end EXIT
failed=0

# The raw images of a lower and of an upper layer, and the layers of them.
python3 - "$work" <<'PYTHON'
import random, sys
work = sys.argv[1]
draw = random.Random(1)
lower = bytearray(8 << 20)
for at in range(0, len(lower), 65536):
    if draw.random() < 0.5:
        lower[at:at + 40960] = draw.randbytes(40960)
upper = bytearray(lower)
for _ in range(200):
    at = 512 * draw.randrange(len(upper) // 512 - 64)
    upper[at:at + 512 * 24] = bytes(512 * 24) if draw.random() < 0.3 else draw.randbytes(512 * 24)
open(f'{work}/lower.raw', 'wb').write(lower)
open(f'{work}/upper.raw', 'wb').write(upper)
PYTHON
mkdir "$work/files" "$work/disk"
own=11111111-1111-1111-1111-111111111111
"$top/tools/make_layer.py" "$work/lower.raw" "$work/files/0" --uuid $own >/dev/null
"$top/tools/make_layer.py" "$work/upper.raw" "$work/files/1" --over "$work/lower.raw" --parent $own >/dev/null

# A port that is free now.
free_port() { python3 -c 'import socket; s = socket.socket(); s.bind(("127.0.0.1", 0)); print(s.getsockname()[1])'; }

# Waits until a server listens there.
await() {
  for _ in $(seq 100); do
    if (exec 3<>"/dev/tcp/127.0.0.1/$1") 2>/dev/null; then return; fi
    sleep 0.1
  done
  echo "no server at $1"; exit 1
}

# flattened HOST NAME: the stack of that host is the upper image.
flattened() {
  printf '{"disk": "%s/disk", "lowers": {"host": "%s", "paths": ["/0", "/1"]}}' "$work" "$1" > "$work/image.json"
  "$program" --config "$work/image.json" flatten > "$work/flat" 2> "$work/notes"
  local status=$?
  if [ $status = 0 ] && cmp -s "$work/flat" "$work/upper.raw"; then echo "ok: $2"; else
    echo "FAILED: $2: status $status, $(cat "$work/notes")"; failed=1; fi
}

# refused HOST NAME: the shelf's fault is told.
refused() {
  printf '{"disk": "%s/disk", "lowers": {"host": "%s", "paths": ["/0", "/1"]}}' "$work" "$1" > "$work/image.json"
  "$program" --config "$work/image.json" flatten > "$work/flat" 2> "$work/notes"
  local status=$?
  if [ $status = 4 ] && [ "$(cat "$work/notes")" = 'refused: shelf fault' ]; then echo "ok: $2"; else
    echo "FAILED: $2: status $status, $(cat "$work/notes")"; failed=1; fi
}

port=$(free_port)
cat > "$work/nginx.conf" <<NGINX
daemon off;
pid $work/nginx.pid;
error_log $work/nginx.log;
events {}
http {
  access_log off;
  client_body_temp_path $work/a; proxy_temp_path $work/b; fastcgi_temp_path $work/c; uwsgi_temp_path $work/d; scgi_temp_path $work/e;
  server { listen 127.0.0.1:$port; root $work/files; }
}
NGINX
nginx -p "$work" -c "$work/nginx.conf" -e "$work/nginx.log" &
started+=($!)
await "$port"
flattened "127.0.0.1:$port" nginx

# The small server, in the way that is named.
serve() {
  port=$(free_port)
  python3 - "$work/files" "$port" "$1" 2>/dev/null <<'PYTHON' &
import http.server, os, re, sys
folder, port, way = sys.argv[1], int(sys.argv[2]), sys.argv[3]

class Server(http.server.BaseHTTPRequestHandler):
    protocol_version = 'HTTP/1.0' if way == 'old' else 'HTTP/1.1'

    def do_GET(self):
        with open(os.path.join(folder, os.path.basename(self.path)), 'rb') as file:
            whole = file.read()
        asked = re.fullmatch(r'bytes=(\d+)-(\d+)', self.headers.get('Range', ''))
        if way == 'whole' or not asked:
            return self.answer(200, whole, None)
        first, last = int(asked[1]), min(int(asked[2]), len(whole) - 1)
        self.answer(206, whole[first:last + 1], f'bytes {first}-{last}/{len(whole)}')

    def answer(self, status, body, placed):
        self.send_response(status)
        if placed:
            self.send_header('Content-Range', placed)
        if way == 'chunked':
            self.send_header('Transfer-Encoding', 'chunked')
        else:
            self.send_header('Content-Length', str(len(body) + (way == 'longer') - (way == 'shorter')))
        self.end_headers()
        if way == 'chunked':
            self.wfile.write(b'%x\r\n%s\r\n0\r\n\r\n' % (len(body), body))
        else:
            self.wfile.write(body[:len(body) // 2] if way == 'cut' else body)
        self.close_connection = way in ('cut', 'longer', 'each', 'old')

    def log_message(self, *words):
        pass

http.server.ThreadingHTTPServer(('127.0.0.1', port), Server).serve_forever()
PYTHON
  started+=($!)
  await "$port"
}

serve good && flattened "127.0.0.1:$port" 'a server with ranges'
serve good && flattened "localhost:$port" 'a server by its name'
serve each && flattened "127.0.0.1:$port" 'a server that closes after each reply'
serve old && flattened "127.0.0.1:$port" 'a server of HTTP/1.0'
serve whole && refused "127.0.0.1:$port" 'a server that ignores the range'
serve chunked && refused "127.0.0.1:$port" 'a server that sends chunked'
serve cut && refused "127.0.0.1:$port" 'a server that ends in the midst of a reply'
serve longer && refused "127.0.0.1:$port" 'a server that says a longer length'
serve shorter && refused "127.0.0.1:$port" 'a server that says a shorter length'
refused "127.0.0.1:$(free_port)" 'no server'
[ $failed = 0 ] && echo 'all as it should be'
exit $failed
