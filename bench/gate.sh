#!/usr/bin/env bash
# gate.sh [WORDS..]: runs the gate from nothing, or rt with the words given, and prints the processor minutes that each crate took:
# for its own proof, for its tests, and for its must-fail edits. Every second it reads /proc for the prover's processes, so what
# lives for less than a second is not counted. The output of the run goes to standard error.
cd "$(dirname "$0")/.." || exit 1
if [ $# -eq 0 ]; then
    # a kit whose rt keeps what passed takes --anew; every other one begins from nothing
    if rt help 2>&1 | grep -q -- --anew; then set -- ci --anew; else set -- ci; fi
fi
exec python3 - "$@" <<'END'
import os, subprocess, sys, time

def ticks_of(pid):
    with open(f"/proc/{pid}/stat") as it:
        fields = it.read().rpartition(")")[2].split()
    if int(fields[3]) != run.pid:
        raise ValueError("of another session")
    return int(fields[11]) + int(fields[12])

def kind_of(words, folder):
    if "/rt-edit-" in folder or any("/rt-edits-" in it for it in words):
        return "edits"
    return "tests" if "--test" in words else "proof"

begun = time.time()
run = subprocess.Popen(["rt", *sys.argv[1:]], stdout=sys.stderr, start_new_session=True)
found, ticks = {}, os.sysconf("SC_CLK_TCK")
while run.poll() is None:
    time.sleep(1)
    for pid in filter(str.isdigit, os.listdir("/proc")):
        try:
            with open(f"/proc/{pid}/cmdline", "rb") as it:
                words = it.read().decode(errors="replace").split("\0")
            if os.path.basename(words[0]) != "rattle" or "--crate-name" not in words:
                continue
            crate = words[words.index("--crate-name") + 1]
            found[pid] = crate, kind_of(words, os.readlink(f"/proc/{pid}/cwd")), ticks_of(pid)
        except (OSError, ValueError, IndexError):
            continue
whole = time.time() - begun
kinds = ["proof", "tests", "edits"]
table = {}
for crate, kind, used in found.values():
    table.setdefault(crate, dict.fromkeys(kinds, 0.0))[kind] += used / ticks / 60
print("| Crate | proof | tests | edits | all |\n|---|---:|---:|---:|---:|")
rows = [(crate, *(row[it] for it in kinds)) for crate, row in sorted(table.items(), key=lambda it: -sum(it[1].values()))]
rows.append(("all", *(sum(row[at] for row in rows) for at in (1, 2, 3))))
for name, *used in rows:
    print(f"| {name} | " + " | ".join(f"{it:.1f}" for it in [*used, sum(used)]) + " |")
print(f"\n{whole / 60:.1f} minutes on {os.cpu_count()} processors, status {run.returncode}")
sys.exit(run.returncode)
END
