#!/bin/sh
# Build the viewer and run it on two strips, each of which stands in a file behind its frame's width and height: document 01's example, and
# the joint, whose pictures go to target/viewer. The library is built too, unless ARW6_LIB_DIR says the folder where it stands.
set -eu
lib=
if [ -n "${ARW6_LIB_DIR:-}" ]; then lib=$(cd "$ARW6_LIB_DIR" && pwd); fi
cd "$(dirname "$0")/.."
if [ -z "$lib" ]; then
    tools/staticlib arw6
    lib=target/staticlib
fi
out=target/viewer
mkdir -p "$out"
cc -std=c99 -D_POSIX_C_SOURCE=200809L -Wall -Wextra -Werror -pedantic -O2 -Iinclude examples/viewer.c "$lib/libarw6.a" -o "$out/viewer"

tail -c +9 crates/tiles/stdin > "$out/example.strip"
tail -c +9 samples/joint.frame > "$out/joint.strip"
"$out/viewer" 16 16 "$out/example.strip" > "$out/listing"
"$out/viewer" 640 480 "$out/joint.strip" "$out/joint" >> "$out/listing"
cmp "$out/listing" examples/viewer.expected
(cd "$out" && sha256sum --quiet -c) < examples/viewer.sha256

# told STATUS WORDS ARGUMENTS: the viewer ends with that status and says the words.
told() {
    status=$1 words=$2
    shift 2
    got=0
    "$out/viewer" "$@" > "$out/printed" 2> "$out/told" || got=$?
    if [ "$got" -ne "$status" ] || ! grep -qF "$words" "$out/told"; then
        echo "viewer $*: status $got, not $status, or not '$words'" >&2
        exit 1
    fi
}
told 1 'is a folder' 16 16 examples
told 1 'No such file' 16 16 "$out/missing"
told 1 'refusal 1: no tile located in the strip' 17 16 "$out/example.strip"
told 1 'tile 0: refusal 9: a packet is missing' 16 16 "$out/example.strip" "$out/example"
told 1 'No such file' 640 480 "$out/joint.strip" "$out/missing/joint"
told 2 'usage' 16 0x10 "$out/example.strip"
told 2 'usage' 16

# changed NAME PLACE BYTES: the joint with other bytes at a place of its last packet.
changed() {
    cp "$out/joint.strip" "$out/$1.strip"
    printf "$3" | dd of="$out/$1.strip" bs=1 seek="$2" conv=notrunc status=none
}
# The first record opens with a width of 20; the last one keeps 128 bits, of which nothing is said.
changed broken 164272 '\200\000\004'
changed spent 164267 '\000\020'
told 0 'tile 1: broken records: 1; the picture is damaged there' 640 480 "$out/broken.strip" "$out/broken"
"$out/viewer" 640 480 "$out/spent.strip" "$out/spent" > "$out/printed" 2> "$out/told"
cmp "$out/told" /dev/null
echo "viewer: ok"
