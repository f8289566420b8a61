#!/usr/bin/env bash
# Prints how long a put into the table of a top takes, of 1,000, 100,000 and 4,000,000 segments, and the memory that the test had
# at most. It runs a test of `table_tests`, which is proved first if it is not yet.
set -euo pipefail
cd "$(dirname "$0")/../crates/table_tests"
rt test > /dev/null
python3 - <<'PYTHON'
import resource, subprocess
test = 'speed_tests::puts_into_small_and_large_tables'
print(subprocess.run(['out/table_tests_tests', test], capture_output=True, text=True, check=True).stdout.strip())
print(f'at most {resource.getrusage(resource.RUSAGE_CHILDREN).ru_maxrss // 1024} MiB')
PYTHON
