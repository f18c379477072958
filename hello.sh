#!/usr/bin/env bash
# Builds nv_sim without its proofs, and runs a trace through it: examples/hello.trace, or the one that is named, with further options. One that
# has `steps` lines is scheduled by them.
# With --proved before them it proves nv_sim and all below it first, which takes long, and leaves the program in crates/nv_sim/out.
set -eu
how=try
if [ "${1:-}" = --proved ]; then
    how=run
    shift
fi
trace=$(realpath "${1:-$(dirname "$0")/examples/hello.trace}")
cd "$(dirname "$0")/crates/nv_sim"
if [ $how = try ]; then
    echo "hello.sh: built without proof, and not kept (./hello.sh --proved proves it first)" >&2
fi
words=(run --noworker)
if grep -q '^steps ' "$trace"; then
    words=(sched)
fi
exec rt "$how" -- "${words[@]}" "${@:2}" < "$trace"
