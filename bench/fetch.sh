#!/usr/bin/env bash
# fetch.sh [PROGRAM [MIB]]: times `flatten` of a layer of 1 GiB, or of so many MiB, that nginx serves on this machine, beside curl
# fetching the same ranges of the same file over one connection, curl fetching it whole, and `flatten` of the layer as a file.
# It needs nginx, curl and python3. PROGRAM is crates/overlay_tool/out/overlay_tool, as `rt run` leaves it.
set -eu
top=$(cd "$(dirname "$0")/.." && pwd)
program=${1:-$top/crates/overlay_tool/out/overlay_tool}
size=${2:-1024}
[ -x "$program" ] || { echo "run 'rt run' in crates/overlay_tool first"; exit 1; }
work=$(mktemp -d)
chmod 755 "$work"
server=
trap '[ -n "$server" ] && kill "$server" 2>/dev/null || true; rm -rf "$work"' EXIT
mkdir "$work/files" "$work/disk"
head -c "$((size << 20))" /dev/urandom > "$work/raw"
"$top/tools/make_layer.py" "$work/raw" "$work/files/0" >/dev/null
rm "$work/raw"
port=$(python3 -c 'import socket; s = socket.socket(); s.bind(("127.0.0.1", 0)); print(s.getsockname()[1])')
cat > "$work/nginx.conf" <<NGINX
daemon off;
pid $work/nginx.pid;
error_log $work/nginx.log;
events {}
http {
  log_format range '\$connection \$http_range';
  access_log $work/asked range;
  keepalive_requests 1000000;
  client_body_temp_path $work/a; proxy_temp_path $work/b; fastcgi_temp_path $work/c; uwsgi_temp_path $work/d; scgi_temp_path $work/e;
  server { listen 127.0.0.1:$port; root $work/files; }
}
NGINX
nginx -p "$work" -c "$work/nginx.conf" -e "$work/nginx.log" &
server=$!
sleep 1
printf '{"disk": "%s/disk", "lowers": {"host": "127.0.0.1:%s", "paths": ["/0"]}}' "$work" "$port" > "$work/far.json"
printf '{"disk": "%s/disk", "lowers": {"files": ["%s/files/0"]}}' "$work" "$work" > "$work/near.json"
python3 - "$work" "$program" "$port" "$size" <<'PYTHON'
import subprocess, sys, time
work, program, port, size = sys.argv[1:]
url = f'http://127.0.0.1:{port}/0'

def timed(words):
    start = time.monotonic()
    subprocess.run(words, stdout=subprocess.DEVNULL, check=True)
    return int(size) / (time.monotonic() - start)

far = [program, '--config', f'{work}/far.json', 'flatten']
timed(far)
asked = [line.split() for line in open(f'{work}/asked')]
ranges = [words[1].removeprefix('bytes=') for words in asked]
with open(f'{work}/ranges', 'w') as config:
    config.write('next\n'.join(f'silent\nfail\nurl = "{url}"\nrange = "{part}"\noutput = "/dev/null"\n' for part in ranges))
print(f'{len(ranges)} requests over {len({words[0] for words in asked})} connection')
ways = {
    'flatten over HTTP': far,
    'curl of the same ranges': ['curl', '-K', f'{work}/ranges'],
    'curl of the whole file': ['curl', '-s', '-o', '/dev/null', url],
    'flatten of the file': [program, '--config', f'{work}/near.json', 'flatten'],
}
for name, words in ways.items():
    print(f'{name}:', ', '.join(f'{timed(words):.0f}' for _ in range(3)), 'MiB a second')
PYTHON
