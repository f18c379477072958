#!/usr/bin/env bash
# Kills nv_run in 50 runs of 200 writes (or of as many as the first word says), recovers, and looks for a front of the writes, each
# whole, in which no answered one is missing. The folder of the second word, else one of this repository, says on which disk.
set -eu
writes=${1:-200}
disk=$(realpath "${2:-$(dirname "$0")/../crates/nv_run}")
cd "$(dirname "$0")/../crates/nv_run"
[ -x out/nv_run ] || rt run > /dev/null || [ -x out/nv_run ]
room=$(mktemp -d "$disk/killed.XXXXXX")
trap 'rm -rf "$room"' EXIT
echo "on $(df --output=source,fstype "$room" | tail -1)"
TMPDIR=$room python3 ../../checks/folder.py "$PWD/out/nv_run" --killed "$writes"
