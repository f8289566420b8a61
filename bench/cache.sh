#!/usr/bin/env bash
# Prints how many pieces of 4 KiB one, two and four threads take in a second from one shared cache of sixteen blocks, and
# how many they read from a file, each through a `FolderShelf` of its own. The file is warm in the system's memory.
# It runs the tests of `range_tests`, which are proved first if they are not yet.
set -euo pipefail
cd "$(dirname "$0")/../crates/range_tests"
rt test | grep ' hits and '
