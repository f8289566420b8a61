#!/usr/bin/env bash
# Prints how many turns of a shared image one, two and four threads take in a second, in which they look at its status, and in
# which they write 4 KiB. The image's disk is in memory, and keeps a copy of each write. It runs the tests of `sharing_tests`, which
# are proved first if they are not yet.
set -euo pipefail
cd "$(dirname "$0")/../crates/sharing_tests"
rt test | grep ' looks at the status and '
