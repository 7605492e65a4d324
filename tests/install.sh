#!/bin/sh
# Looks at what the archive exports. Installs into a folder of its own, and there compiles the C host as a stranger
# would: by pkg-config over the archive, and over a shared object made of it, over which a host of version 1 must not run.
# Elsewhere than on x86-64 the installation has to be refused.
set -eu
unset CDPATH
. "$(dirname "$0")/../scripts/settings.sh"
out=$root/target/install
rm -rf "$out"
mkdir -p "$out/far"

# The calls that overlap.h declares, as a compiler reads it, and no other name that could meet one of a host's.
need "$ARCHIVE" "sh scripts/make.sh overlap_c"
if command -v nm >/dev/null; then
    declared=$("$CC" -E "$root/include/overlap.h" | sed -n 's/^uint32_t \(overlap_[a-z0-9_]*\)(.*/\1/p' | LC_ALL=C sort)
    exported=$(nm -g --defined-only "$ARCHIVE" | sed -n 's/^[0-9a-f]* [A-Z] //p' | LC_ALL=C sort)
    [ "$declared" = "$exported" ] || { printf 'overlap.h declares\n%s\nand the archive exports\n%s\n' "$declared" "$exported"; exit 1; }
    echo "the archive exports the $(echo "$declared" | wc -l) calls that overlap.h declares, and nothing else"
else
    echo "NOT RUN: what the archive exports, as there is no nm"
fi

# The refusal, which any machine can play: one that says it is an Arm.
printf '#!/bin/sh\necho aarch64\n' >"$out/far/uname"
chmod +x "$out/far/uname"
if said=$(PATH="$out/far:$PATH" sh "$root/scripts/install.sh" "$out/refused" 2>&1) || [ -e "$out/refused" ] ||
    [ "$said" != "install.sh: the archive is x86-64 code; on this machine use scripts/here.sh archive for trials" ]; then
    echo "on an Arm machine the installation should be refused in one line: $said"
    exit 1
fi
native || { echo "the installation is refused, as the archive is x86-64 code"; exit 0; }

sh "$root/scripts/install.sh" "$out/usr"
DESTDIR=$out/staged sh "$root/scripts/install.sh" /opt/overlap
for file in lib/liboverlap_c.a include/overlap.h share/doc/overlap/LICENSE share/doc/overlap/NOTICE; do
    cmp "$out/usr/$file" "$out/staged/opt/overlap/$file"
done
grep -qx 'prefix=/opt/overlap' "$out/staged/opt/overlap/lib/pkgconfig/overlap.pc"

pc=$out/usr/lib/pkgconfig
if command -v pkg-config >/dev/null; then
    flags=$(PKG_CONFIG_PATH=$pc pkg-config --cflags --libs overlap)
    [ "$(PKG_CONFIG_PATH=$pc pkg-config --modversion overlap)" = "$(sed -n 's/^#define OVERLAP_VERSION //p' "$root/include/overlap.h")" ]
else
    echo "there is no pkg-config: overlap.pc is read by hand"
    flags=$(sed -n -e 's/^Cflags: //p' -e 's/^Libs: //p' "$pc/overlap.pc" | sed -e "s|\${libdir}|$out/usr/lib|" -e "s|\${includedir}|$out/usr/include|")
fi
set --
for flag in $flags; do set -- "$@" "$flag"; done
"$CC" -std=c11 -Wall -Wextra -Werror "$root/hosts/c/host.c" "$@" -o "$out/host"
"$out/host" | cmp - "$root/hosts/c/expected.txt"
echo "the host compiled with the installed archive prints what is stored"

(cd "$out/usr/lib" && "$CC" -shared -o liboverlap.so -Wl,-z,text -Wl,--whole-archive liboverlap_c.a -Wl,--no-whole-archive)
"$CC" -std=c11 -I "$out/usr/include" "$root/hosts/c/host.c" -L "$out/usr/lib" -loverlap -o "$out/host-shared"
LD_LIBRARY_PATH=$out/usr/lib "$out/host-shared" | cmp - "$root/hosts/c/expected.txt"
if "$out/host-shared" >/dev/null 2>&1; then echo "the host doesn't use the shared object"; exit 1; fi
echo "the host over the shared object prints what is stored"

# A host of version 1, over a shared object that has its call, and then over this one.
mkdir "$out/old"
echo 'unsigned overlap_call(void) { return 0; }' | "$CC" -x c -shared -fPIC -o "$out/old/liboverlap.so" -
"$CC" -std=c11 "$root/tests/c/version_1.c" -L "$out/old" -loverlap -o "$out/host-1"
LD_LIBRARY_PATH=$out/old "$out/host-1"
if LD_LIBRARY_PATH=$out/usr/lib "$out/host-1" 2>"$out/said"; then echo "a host of version 1 runs over the shared object"; exit 1; fi
grep -q 'undefined symbol: overlap_call$' "$out/said" || { echo "a host of version 1 ends for another reason: $(cat "$out/said")"; exit 1; }
echo "a host of version 1 doesn't run over the shared object, as it has no overlap_call"
