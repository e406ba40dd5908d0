#!/bin/sh
# Compiles the C example against the header and the static library, and runs it
# under AddressSanitizer and UndefinedBehaviorSanitizer. Then measures how much
# stack a call takes, without them, and with every symbol bound at the start.
#
# COPP3_LIB_DIR is the folder of libcopp3_c.a, by default target/staticlib, where c/build.sh puts it.
set -eu
here=$(cd "$(dirname "$0")" && pwd)
lib=${COPP3_LIB_DIR:-$here/../target/staticlib}
out=${COPP3_C_OUT:-$here/../target/c}
mkdir -p "$out"

"${CC:-cc}" -std=c11 -Wall -Wextra -Werror -g -O1 \
    -fsanitize=address,undefined -fno-sanitize-recover=all \
    -I "$here/../include" "$here/example.c" "$lib/libcopp3_c.a" -lm -o "$out/example"
"$out/example" >"$out/example.txt"
head -n 1 "$out/example.txt"
echo "C example: passed"

"${CC:-cc}" -std=c11 -Wall -Wextra -Werror -O1 -pthread -Wl,-z,now \
    -I "$here/../include" "$here/stack.c" "$lib/libcopp3_c.a" -o "$out/stack"
"$out/stack"
echo "stack of a call: passed"
