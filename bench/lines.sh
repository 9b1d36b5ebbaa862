#!/usr/bin/env bash
# Times generated sessions through the built program: user time, system time and peak memory of each.
set -euo pipefail
cd "$(dirname "$0")/.."
program=bin/heapdbg
work=$(mktemp -d)
trap 'rm -rf "$work"' EXIT
measure() {
    local kind=$1 count=$2 regions=$3
    python3 bench/generate.py "$kind" "$count" > "$work/in"
    printf '%s, %s lines, %s regions: ' "$kind" "$(wc -l < "$work/in")" "$regions"
    python3 - "$program" "$regions" "$work/in" <<'P'
import os, subprocess, sys, time
program, regions, path = sys.argv[1:]


def peak(pid):
    """The most memory that the process has had, in KiB; None once it has ended."""
    with open(f"/proc/{pid}/status") as status:
        return next((int(line.split()[1]) for line in status if line.startswith("VmHWM:")), None)


with open(path, "rb") as lines:
    child = subprocess.Popen([program, "run", "--regions", regions], stdin=lines, stdout=subprocess.DEVNULL)
# The peak is read until the end, since what the kernel tells afterwards counts this script's own memory too.
most, ended = 0, 0
while ended == 0:
    most = peak(child.pid) or most
    ended, status, used = os.wait4(child.pid, os.WNOHANG)
    time.sleep(0.0005)
assert status == 0
print(f"user {used.ru_utime:.2f} s, system {used.ru_stime:.2f} s, peak {most / 1024:.1f} MiB")
P
}
measure first 100000 16
measure first 100000 256
measure pairs 4000000 1
measure last 4000000 256
measure mixed 1000000 8
measure mixed_full 1000000 256
measure marking 1000000 256
measure cycles 1000000 256
measure puts 1000000 16
measure fields 10000 16
measure fields_nowhere 10000 16
