#!/usr/bin/env bash
# Prints durable writes of 64 bytes a second of nv_run, beside a plain loop of pwrite and fdatasync on the same disk, and how many
# syncs each makes where strace is there. A folder may be named, else it is done on the disk of this repository.
set -eu
disk=$(realpath "${1:-$(dirname "$0")/../crates/nv_run}")
cd "$(dirname "$0")/../crates/nv_run"
[ -x out/nv_run ] || rt run > /dev/null || [ -x out/nv_run ]
room=$(mktemp -d "$disk/durable.XXXXXX")
trap 'rm -rf "$room"' EXIT
echo "on $(df --output=source,fstype "$room" | tail -1)"
python3 - "$PWD/out/nv_run" "$room" <<'PY'
import os, shutil, subprocess, sys, time

PROGRAM, ROOM = sys.argv[1:]
WRITES = 1000
HEAD = b"file a\nfd 0 a rw\n"
CALLS = b"".join(b"0 pwrite 0 %d %s\n" % (i % 64 * 64, b"61" * 64) for i in range(WRITES))
FOLDER = ROOM + "/folder"
NV_RUN = [PROGRAM, FOLDER, "run", "--noworker"]
# The file has its length before, as the parts of a region have, so that no sync has to make a length durable.
LOOP = """
import os, time
file = os.open("plain", os.O_RDWR | os.O_CREAT)
os.pwrite(file, bytes(4096), 0)
os.fsync(file)
start = time.monotonic()
for i in range(%d):
    os.pwrite(file, bytes(64), i %% 64 * 64)
    os.fdatasync(file)
print(time.monotonic() - start)
"""


def output(words, given=b""):
    done = subprocess.run(words, input=given, stdout=subprocess.PIPE, cwd=ROOM)
    assert done.returncode == 0, (words, done.stdout[-200:])
    return done.stdout


def syncs(words, given=b""):
    counts = ROOM + "/counts"
    output([STRACE, "-f", "-c", "-e", "trace=fsync,fdatasync", "-o", counts, *words], given)
    with open(counts) as lines:
        return sum(int(line.split()[3]) for line in lines if line.split()[-1:] in (["fsync"], ["fdatasync"]))


def plain(count):
    return [sys.executable, "-c", LOOP % count]


def committed(number):
    """When the write of this number was committed: the last that its part saw."""
    return os.stat(f"{FOLDER}/region/part-{1 + number}").st_mtime


def form():
    shutil.rmtree(FOLDER, ignore_errors=True)
    os.mkdir(FOLDER)
    output([*NV_RUN, "--entries", "1024"], HEAD)


form()
before = WRITES / float(output(plain(WRITES)))
start = time.monotonic()
output(NV_RUN, HEAD + CALLS)
whole = time.monotonic() - start
ours = committed(WRITES - 1) - committed(0)
behind = WRITES / float(output(plain(WRITES)))
print(f"durable writes of 64 bytes a second: nv_run {(WRITES - 1) / ours:.0f}, a plain loop before it {before:.0f} and after it {behind:.0f}")
print(f"all of the run, with the opening of a region of 1,024 entries and the way to the file: {whole:.2f} s, its writes {ours:.2f} s")
STRACE = shutil.which("strace")
if STRACE:
    form()
    opening, all_of_it = syncs(NV_RUN, HEAD), syncs(NV_RUN, HEAD + CALLS)
    print(f"syncs a write: nv_run {(all_of_it - opening) / WRITES:.2f}, a plain loop {(syncs(plain(WRITES)) - syncs(plain(0))) / WRITES:.2f}")
    print(f"syncs of a run without writes: {opening}")
else:
    print("syncs: not counted, as there is no strace")
PY
