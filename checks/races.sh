#!/usr/bin/env bash
# Looks for data races of four threads and a worker over one mount, by the ThreadSanitizer of Debian's clang-14 and libclang-rt-14-dev. rt try builds
# nv_sim without its proofs; the module that it hands to its compiler is kept, and compiled anew with each load and store watched. A trace of 1,200
# drawn calls must run with no report. The same with every atomic relaxed must give one, so that the check can fail. It is no part of .ci/run, since
# the kit has no such sanitizer. Closes with 'N passed, M failed', and fails where one fails.
set -eu
cd "$(dirname "$0")/../crates/nv_sim"
kit=$(dirname "$(dirname "$(realpath "$(command -v rt)")")")
room=$(mktemp -d)
trap 'rm -rf "$room"' EXIT
# The kit as it is, but for its compiler, which keeps what it compiles last.
mkdir -p "$room/kit/toolchain/bin" "$room/kit/bin"
for file in "$kit"/*; do
    case ${file##*/} in toolchain | bin) ;; *) ln -s "$file" "$room/kit/" ;; esac
done
ln -s "$kit/toolchain/lib" "$room/kit/toolchain/lib"
for file in "$kit"/toolchain/bin/*; do
    [ "${file##*/}" = clang ] || ln -s "$file" "$room/kit/toolchain/bin/"
done
cp "$kit"/bin/* "$room/kit/bin/"
cat > "$room/kit/toolchain/bin/clang" << END
#!/usr/bin/env bash
[ ! -f module.bc ] || cp module.bc "$room/module.bc"
exec -a "\$0" "$kit/toolchain/bin/clang" "\$@"
END
chmod +x "$room/kit/toolchain/bin/clang"
python3 "$room/kit/bin/rt" try -- run < /dev/null > "$room/log" 2>&1 || { cat "$room/log"; exit 1; }
cd "$room"
compile() { "$kit/toolchain/bin/clang" --target=x86_64-unknown-linux-gnu --no-default-config "$@"; }
compile -S -emit-llvm -Xclang -disable-llvm-passes -x ir module.bc -o whole.ll
sed -i -E '/^attributes/ s/\bsanitize_address\b//; /^attributes/ s/\{ /{ sanitize_thread /; s/"(probe-stack|stack-probe-size)"="[^"]*"//g' whole.ll
sed -E '/atomicrmw|cmpxchg|load atomic|store atomic/ s/(acq_rel|seq_cst|acquire|release)/monotonic/g' whole.ll > relaxed.ll
# The sanitizer of clang-14 has no names of its own for these yet.
cat > moves.c << END
#include <string.h>
void *__tsan_memset(void *to, int byte, size_t count) { return memset(to, byte, count); }
void *__tsan_memcpy(void *to, const void *from, size_t count) { return memcpy(to, from, count); }
void *__tsan_memmove(void *to, const void *from, size_t count) { return memmove(to, from, count); }
END
clang-14 -O1 -fno-builtin -c moves.c
for kind in whole relaxed; do
    compile -c -x ir "$kind.ll" -o "$kind.o" -fPIE -O2 -fsanitize=thread
    clang-14 -fsanitize=thread -o "$kind" "$kind.o" moves.o "$kit/c/libos_c.a" "$kit/c/liblibc_c.a" -lpthread
done
python3 - > trace << END
import random
draws = random.Random(5)
print("file a\nfd 0 a rw")
for turn in range(300):
    for thread in range(4):
        if draws.random() < 0.7:
            print(thread, "pwrite 0", draws.randrange(4000), "%02x" % draws.randrange(256) * draws.randrange(1, 80))
        else:
            print(thread, "pread 0", draws.randrange(3900), draws.randrange(1, 150))
    if turn % 60 == 59:
        print("round")
END
passed=0
if ./whole run < trace > report 2> races && [ "$(tail -1 report)" = "end 1200 0 0" ] && ! grep -q ThreadSanitizer races; then
    passed=$((passed + 1))
else
    head -60 races
fi
./relaxed run < trace > report 2> races || true
if grep -q "ThreadSanitizer: data race" races; then passed=$((passed + 1)); fi
echo "$passed passed, $((2 - passed)) failed"
[ $passed = 2 ]
