#!/usr/bin/env bash
# Installs ecpool, ceph_ec_tool and their man pages, or removes them.
set -u
usage() {
    cat <<'TEXT'
usage: scripts/install.sh PREFIX               installs under PREFIX, as /usr/local
       scripts/install.sh --uninstall PREFIX   takes away what it has installed there
       scripts/install.sh --help

Programs go to PREFIX/bin, man pages to PREFIX/share/man/man1. Where this machine's processor has AVX2 the programs are built
for it, and else as the gate builds them. Building first proves what is not proved yet on this machine: a minute where the
proofs are kept, half an hour and more from nothing (docs/PERFORMANCE.md). What stands in crates/*/out afterwards is the gate's
build again.
TEXT
}
say() { printf 'install: %s\n' "$*"; }
give_up() { say "$*" >&2; exit 1; }

installed='bin/ecpool bin/ceph_ec_tool share/man/man1/ecpool.1 share/man/man1/ceph_ec_tool.1'
uninstall() {
    local prefix=$1 file
    [ -d "$prefix" ] || give_up "there is no folder $prefix"
    for file in $installed; do
        [ ! -e "$prefix/$file" ] || { rm "$prefix/$file" && say "took away $prefix/$file"; } || exit 1
    done
}

case "${1:-}" in
    --help | -h) usage; exit 0 ;;
    --uninstall) [ $# -eq 2 ] || { usage >&2; exit 2; }; uninstall "$2"; exit 0 ;;
    '' | -*) usage >&2; exit 2 ;;
esac
[ $# -eq 1 ] || { usage >&2; exit 2; }

# Everything that can be checked before a build is checked here.
mkdir -p "$1" || exit 1
prefix=$(realpath "$1")
[ -w "$prefix" ] || give_up "$prefix cannot be written to"
cd "$(dirname "$0")/.." || exit 1
command -v rt >/dev/null || give_up "rt of the Rattle kit is not here"
log=$(mktemp) || exit 1
trap 'rm -f "$log"' EXIT

# The flags that a processor needs for x86-64-v3.
cpu=--cpu=x86-64-v3
for flag in avx2 bmi1 bmi2 fma f16c movbe abm; do
    grep -qw "$flag" /proc/cpuinfo || cpu=
done
kind=${cpu:+for a processor with AVX2}
kind=${kind:-as the gate does}
say "builds ecpool and ceph_ec_tool $kind, and installs them under $prefix"
say "a minute where the proofs are kept on this machine, half an hour and more from nothing"

# Builds a program crate by running it with some words, for the processor that is given or for the gate's. A build for one
# processor replaces a build for the other.
build() {
    local crate=$1 cpu=$2
    shift 2
    # shellcheck disable=SC2086 # no word if no processor is given
    (cd "crates/$crate" && rt run $cpu -- "$@" </dev/null >"$log" 2>&1) && return
    tail -n 20 "$log" >&2
    say "crates/$crate is not built" >&2
    return 1
}

# Installs a program, and puts the gate's build back even if this fails.
program() {
    local crate=$1 status=0
    say "proving and building $crate"
    build "$crate" "$cpu" "${@:2}" && install -D -m 755 "crates/$crate/out/$crate" "$prefix/bin/$crate" || status=1
    [ "$status" -ne 0 ] || say "installed $prefix/bin/$crate"
    [ -z "$cpu" ] || build "$crate" '' "${@:2}" || status=1
    return "$status"
}

program ecpool try plugin=jerasure,k=2,m=1 || exit 1
program ceph_ec_tool test-plugin-exists shec || exit 1
install -d "$prefix/share/man/man1" && install -m 644 docs/man/*.1 "$prefix/share/man/man1" || exit 1
say "installed the man pages; scripts/install.sh --uninstall $prefix takes all away again"
