# shellcheck shell=sh
# Read by build where COUNT is icount. Makes, in target/bench, the plugin icount.so for this machine's emulator, and the
# x86-64 programs that are counted with it: drive (x86_archive and limit.c on pairs) and c-program (program.c).

: "${root:?}" "${out:?}" "${x86_archive:?}"   # of build
plugins() { "$QEMU" -h 2>/dev/null | grep -q -e '^-plugin'; }
if ! plugins && [ "$QEMU $(id -u)" = "qemu-x86_64 0" ] && command -v apt-get >/dev/null; then
    { apt-get update && apt-get install -y --no-install-recommends qemu-user; } >&2 || true
fi
plugins || { echo "bench: no $QEMU that takes plugins, as that of Debian 12's package qemu-user does; QEMU names another" >&2; exit 2; }
version=1                             # of the plugin's interface
[ "$("$QEMU" --version | sed -n 's/.* version \([0-9]*\)\..*/\1/p')" -lt 9 ] || version=2
"$CC" -std=c11 -O2 -Wall -Wextra -shared -fPIC -DVERSION=$version "$root/bench/icount.c" -o "$out/icount.so"

# Compiled with this machine's C headers, in which all that is used here is the same as in x86-64's; linked with the kit.
clang=$(command -v clang || echo "$KIT/bin/clang")
headers=$("$CC" -E -Wp,-v -x c /dev/null 2>&1 >/dev/null | sed -n 's|^ /|/|p')
far_object() ( # NAME: of bench/NAME.c
    name=$1
    set --
    for folder in $headers; do set -- "$@" -isystem "$folder"; done
    "$clang" --target=x86_64-linux-gnu -nostdinc "$@" -I "$root/include" -O3 -fPIC -Wall -Wextra \
        -c "$root/bench/$name.c" -o "$out/$name-far.o"
)
for name in limit drive program; do far_object "$name"; done
link_x86 "$out/drive" "$out/drive-far.o" "$out/limit-far.o" "$x86_archive"
link_x86 "$out/c-program" "$out/program-far.o"
