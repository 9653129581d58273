#!/usr/bin/env bash
# Makes c/build/libspasm.a, c/build/libspasm.so and c/build/spasm.pc, and says where they are. The library is proved first, which takes as
# long as ./build from nothing, and some minutes after it. It is compiled for x86-64-v3 (AVX2) if this processor has it, else for
# x86-64-v2, as the programs are, or for what --cpu=PROCESSOR says. Other words go to ./build.
set -euo pipefail
cd "$(dirname "${BASH_SOURCE[0]}")/.."

command -v rt >/dev/null || { echo "c/build.sh: there is no command rt: put the Rattle toolchain's bin/ on PATH" >&2; exit 2; }
# The kit's part that is written in C: what the library calls to take and give back memory.
heap=$(dirname "$(dirname "$(readlink -f "$(command -v rt)")")")/c/liblibc_c.a
processor=x86-64-v2
case $(/lib64/ld-linux-x86-64.so.2 --help) in
    *'x86-64-v3 (supported'*) processor=x86-64-v3 ;;
esac
words=()
for word; do
    case $word in
        --cpu=*) processor=${word#--cpu=} ;;
        *) words+=("$word") ;;
    esac
done
./build "--cpu=$processor" "${words[@]}" spasm_c

folder=$PWD/c/build
proved=crates/spasm_c/out/libspasm_c.a
mkdir -p "$folder"
# Every name but the exports is hidden, so that the library stands beside others that are written in Rattle.
exports=$(sed -n 's/^pub extern "C" fn \(spasm_[a-z_]*\).*/\1/p' crates/spasm_c/src/lib.rt)
exports="$exports spasm_processor"
cc -std=c11 -O2 -fPIC -Wall -Wextra -Werror -DSPASM_PROCESSOR="\"$processor\"" -c c/processor.c -o "$folder/processor.o"
printf '{ global:%s local: *; };\n' "$(printf ' %s;' $exports)" >"$folder/libspasm.map"
cc -shared "$folder/processor.o" -Wl,--whole-archive "$proved" -Wl,--no-whole-archive "$heap" -Wl,--version-script="$folder/libspasm.map" \
    -Wl,-soname,libspasm.so -Wl,-z,defs -o "$folder/libspasm.so"
ld -r "$folder/processor.o" --whole-archive "$proved" --no-whole-archive "$heap" -o "$folder/libspasm.o"
objcopy $(printf ' --keep-global-symbol=%s' $exports) "$folder/libspasm.o"
rm -f "$folder/libspasm.a"
ar rcs "$folder/libspasm.a" "$folder/libspasm.o"
rm "$folder/libspasm.o" "$folder/processor.o" "$folder/libspasm.map"
cat >"$folder/spasm.pc" <<END
Name: spasm
Description: Exact linear algebra modulo a prime for sparse matrices, proved
Version: 1.0.0
Cflags: -I$PWD/c
Libs: -L$folder -lspasm
END
echo "c/build.sh: made $folder/libspasm.a, $folder/libspasm.so and $folder/spasm.pc; the header is $PWD/c/spasm.h"
