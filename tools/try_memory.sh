#!/usr/bin/env bash
# try_memory.sh [PROGRAM]: runs the program over folders and layers with each allocation failing in turn, in a temporary
# folder. Such a run ends as one in which none fails, or with status 5 and the line of want of memory; what it printed
# till then is a beginning of what it prints else, and the image is as it was. PROGRAM is as in try_program.sh. It takes
# a minute, and needs cc and python3.
set -u
cd "$(dirname "$0")/.." || exit 1
top=$PWD
program=$(realpath "${1:-crates/overlay_tool/out/overlay_tool}") || exit 1
folder=$(mktemp -d) || exit 1
trap 'rm -rf "$folder"' EXIT
cd "$folder" || exit 1
failed=0

cat > failing.c << 'C'
#define _GNU_SOURCE
#include <stdio.h>
#include <stdlib.h>
#include <sys/syscall.h>
#include <unistd.h>
extern void *__libc_malloc(size_t size);
extern void *__libc_realloc(void *old, size_t size);
static long calls, wanted = -1;
static int fails(void) {
    if (wanted < 0) {
        const char *text = getenv("FAIL_ALLOC");
        wanted = text ? atol(text) : 0;
    }
    return ++calls == wanted;
}
void *malloc(size_t size) { return fails() ? NULL : __libc_malloc(size); }
void *realloc(void *old, size_t size) { return fails() ? NULL : __libc_realloc(old, size); }
// by which the program ends
void _exit(int status) {
    long made = calls;
    FILE *file = fopen("calls", "w");
    if (file) {
        fprintf(file, "%ld\n", made);
        fclose(file);
    }
    syscall(SYS_exit_group, status);
    __builtin_unreachable();
}
C
cc -O1 -shared -fPIC -o failing.so failing.c || exit 1

# run NUMBER ARGUMENT..: a run over `input` whose allocation of that number fails, counted from 1, or none where it is 0
run() {
  local number=$1
  shift
  FAIL_ALLOC=$number LD_PRELOAD=$folder/failing.so "$program" "$@" < input > printed 2> refused
}

# what the folder of the image holds before each run
fresh() {
  rm -rf disk
  cp -r before disk
}

# whether the image reads as that file
reads() {
  "$program" --config image.json read 0 "$sectors" < /dev/null > read 2> fault && cmp -s read "$1"
}

# What is looked at after a run that was refused: nothing, an empty folder, an image as it was, or one to commit.
nothing() { :; }
empty() { [ -z "$(ls disk)" ]; }
unchanged() { reads before.raw; }
goes_on() {
  reads before.raw || return 1
  "$program" --config image.json commit $third < /dev/null > read 2> fault || return 1
  cmp -s read wanted && reads before.raw
}

# whether the run was refused for want of memory, in the midst of what is printed
is_refused() {
  [ "$1" = 5 ] && cmp -s refused memory && head -c "$(stat -c %s printed)" wanted | cmp -s - printed
}

# each LOOK ARGUMENT..: the runs with each allocation failing in turn, of which those that were refused are looked at
each() {
  local look=$1 calls number got same=0 wrong=0
  shift
  fresh
  run 0 "$@"
  got=$?
  calls=$(cat calls)
  cp printed wanted
  if [ $got != 0 ] || [ -s refused ]; then
    echo "FAILED: $*: status $got, '$(cat refused)'"
    failed=$((failed + 1))
    return
  fi
  for number in $(seq "$calls"); do
    fresh
    run "$number" "$@"
    got=$?
    if [ $got = 0 ] && cmp -s printed wanted && [ ! -s refused ]; then
      same=$((same + 1))
    elif ! is_refused $got || ! $look; then
      echo "FAILED: $*: allocation $number: status $got, '$(head -c 60 printed | tr -d '\0')', '$(cat refused)'"
      wrong=$((wrong + 1))
    fi
  done
  echo "$*: $calls allocations, of which $same may fail, $wrong wrong"
  failed=$((failed + wrong))
}

echo 'refused: memory' > memory
first=11111111-1111-1111-1111-111111111111
second=22222222-2222-2222-2222-222222222222
third=33333333-3333-3333-3333-333333333333
python3 -c 'import sys; sys.stdout.buffer.write(bytes(512) + b"a" * 512 + b"b" * 512 + bytes(512))' > first.raw
python3 -c 'import sys; sys.stdout.buffer.write(bytes(512) + b"a" * 512 + bytes(1024))' > second.raw
"$top/tools/make_layer.py" first.raw first.layer --uuid $first > made
"$top/tools/make_layer.py" second.raw second.layer --over first.raw --parent $first --uuid $second > made
echo '{"disk":"disk","lowers":{"files":["first.layer","second.layer"]}}' > image.json
echo '{"disk":"disk"}' > plain.json
: > input

# layers, and new images
mkdir before
each empty --config image.json info 1
each empty --config image.json stack
each empty --config image.json flatten
each empty --config image.json create
each empty --config plain.json create --sectors 8
cp first.layer input
each nothing flatten --stdin
each empty --config plain.json flatten --stdin
: > input

# the acts of an image that is made begin only when it is there
each nothing --config plain.json make 1 40

# an image over layers, of which some was written and zeroed
sectors=4
mkdir disk 2> made
fresh
"$program" --config image.json create < input > made || exit 1
python3 -c 'import sys; sys.stdout.buffer.write(b"c" * 1024)' > input
"$program" --config image.json write 0 < input > made || exit 1
"$program" --config image.json zero 3 1 < input > made || exit 1
"$program" --config image.json read 0 4 < /dev/null > before.raw || exit 1
rm -r before
cp -r disk before
each unchanged --config image.json read 0 4
each unchanged --config image.json write 2
: > input
each unchanged --config image.json zero 0 2
each unchanged --config image.json grow 8
each goes_on --config image.json commit $third

# the same after a commit
fresh
"$program" --config image.json commit $third < input > made || exit 1
rm -r before
cp -r disk before
each unchanged --config image.json read 0 4
each unchanged --config image.json sweep

[ $failed = 0 ] && echo "the program tells of want of memory as it should"
exit $((failed > 0))
