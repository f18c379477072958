#!/usr/bin/env bash
# Prints lines per second and the peak memory of `nv_sim run --noworker` on a trace of 100,000 reads of 64 bytes.
set -eu
cd "$(dirname "$0")/../crates/nv_sim"
[ -x out/nv_sim ] || rt run -- run --noworker < stdin > /dev/null 2>&1
python3 - "$PWD/out/nv_sim" <<'PY'
import resource, subprocess, sys, time

program = sys.argv[1]
lines = ["file a", "fd 0 a rw"]
lines += [f"0 pwrite 0 {64 * i} {'61' * 64}" for i in range(16)]
lines += [f"0 pread 0 {64 * (i % 16)} 64" for i in range(100_000)]
trace = ("\n".join(lines) + "\n").encode()
start = time.monotonic()
done = subprocess.run([program, "run", "--noworker"], input=trace, stdout=subprocess.PIPE, check=True)
seconds = time.monotonic() - start
peak = resource.getrusage(resource.RUSAGE_CHILDREN).ru_maxrss
assert done.stdout.endswith(b"end 100016 0 0\n"), done.stdout[-200:]
print(f"{len(lines)} lines in {seconds:.2f} s: {len(lines) / seconds:.0f} lines/s, peak memory {peak // 1024} MiB")
PY
