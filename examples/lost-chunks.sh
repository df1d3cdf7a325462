#!/usr/bin/env bash
# A text is encoded as six chunks of which any four are enough. Two are lost, and the text comes back. With three lost it does
# not. The script's word is the path of ceph_ec_tool; without one it takes the program of this checkout, or else the installed
# one. It compares what is said with lost-chunks.output beside it, and ends with status 1 if they differ.
set -euo pipefail
here=$(cd "$(dirname "${BASH_SOURCE[0]}")" && pwd)
built=$here/../crates/ceph_ec_tool/out/ceph_ec_tool
if [ $# -gt 0 ]; then
    tool=$(realpath -e -- "$1")
elif [ -x "$built" ]; then
    tool=$(realpath -e -- "$built")
elif ! tool=$(command -v ceph_ec_tool); then
    echo "lost-chunks: there is no ceph_ec_tool yet: build it by (cd crates/ceph_ec_tool && rt run -- test-plugin-exists shec)" >&2
    exit 1
fi
[ -f "$tool" ] && [ -x "$tool" ] || { echo "lost-chunks: $tool is no program" >&2; exit 1; }
work=$(mktemp -d)
trap 'rm -rf "$work"' EXIT

# Runs the tool, and says with which status it ended.
run() {
    local what=$1 status=0
    shift
    "$tool" "$@" || status=$?
    echo "$what, status $status"
}

# The text, its loss, and what comes back.
story() {
    cd "$work"
    echo 'Four chunks of six are enough.' >note
    size=$(stat -c %s note)
    run 'encoded' encode k=4,m=2 32 0,1,2,3,4,5 note
    stat -c '%n has %s bytes' note.*
    rm note note.0 note.3
    run 'decoded' decode k=4,m=2 32 1,2,4,5 note
    stat -c '%n has %s bytes, with zeros behind the text' note
    head -c "$size" note
    run 'from three' decode k=4,m=2 32 1,2,4 note
    rm note.5
    run 'from three and one that is gone' decode k=4,m=2 32 1,2,4,5 note
}

said=$(story)
echo "$said"
if [ "$said" != "$(cat "$here/lost-chunks.output")" ]; then
    echo "lost-chunks: that is not what examples/lost-chunks.output has" >&2
    exit 1
fi
