# shellcheck shell=sh
# Read by the other scripts: where things are. Each may be set from outside.
#   ARCHIVE        the static library that exports the calls of include/overlap.h
#   PROGRAM        the program `overlap`
#   PROGRAM_FILED  the program `overlap_filed`
#   PUBLISHED      the folder of the published Rust, with crates/fgumi-consensus in it
#   CC             the C compiler of this machine
unset CDPATH
root=$(cd "$(dirname "$0")/.." && pwd)
ARCHIVE=${ARCHIVE:-$root/target/staticlib/liboverlap_c.a}
PROGRAM=${PROGRAM:-$root/target/bin/overlap}
PROGRAM_FILED=${PROGRAM_FILED:-$root/target/bin/overlap_filed}
PUBLISHED=${PUBLISHED:-$root/../shared/docs/src}
CC=${CC:-$(command -v cc || command -v clang || command -v gcc || echo cc)}
export ARCHIVE PROGRAM PROGRAM_FILED PUBLISHED CC

# What a script needs: it ends here, with one line, where that isn't there.
missing() { # WHAT HOW-TO-GET-IT
    echo "$(basename "$0"): $1 is missing; get it by: $2" >&2
    exit 2
}
need() { # FILE COMMAND-THAT-MAKES-IT
    [ -e "$1" ] || missing "$1" "$2"
}
need_tool() { # COMMAND..
    for tool; do
        command -v "$tool" >/dev/null && continue
        case $tool in
        rt) missing rt "putting bin/ of the Rattle kit on the PATH" ;;
        python3) missing python3 "apt-get install python3" ;;
        *) missing "a C compiler ($tool)" "apt-get install gcc libc6-dev, or naming one with CC" ;;
        esac
    done
}
need_archive() {
    need "$ARCHIVE" "sh scripts/make.sh overlap_c"
    native || ARCHIVE=$(sh "$root/scripts/far.sh" "$ARCHIVE")
}
need_program() {
    need "$PROGRAM" "sh scripts/make.sh overlap"
    PROGRAM=$(startable "$PROGRAM")
}
need_program_filed() {
    need "$PROGRAM_FILED" "sh scripts/make.sh overlap_filed"
    PROGRAM_FILED=$(startable "$PROGRAM_FILED")
}
GET_RUSTC="apt-get install rustc, on Debian 13 or later (1.85 or newer is needed)"
have_rustc() { rustc --edition 2024 --print sysroot >/dev/null 2>&1; }
need_rustc() { have_rustc || missing "a rustc that knows edition 2024" "$GET_RUSTC"; }

# The published Rust uses casts that rustc counts as finished from 1.87 on. Debian 13's 1.85 has them too, where it is told.
take_casts() { # FOLDER-FOR-A-TRY
    casts=
    echo 'pub fn f(n: u32) -> i32 { n.cast_signed() }' >"$1/casts.rs"
    if ! rustc --crate-type rlib --emit metadata "$1/casts.rs" -o "$1/casts.rmeta" 2>/dev/null; then
        export RUSTC_BOOTSTRAP=1
        casts='crate-attr=feature(integer_sign_cast)'
    fi
}
with_casts() { # COMMAND WORD..: runs it, with what take_casts found behind it
    if [ -n "$casts" ]; then set -- "$@" -Z "$casts"; fi
    "$@"
}

# The archive and the programs are x86-64 code. On another machine the kit's emulator runs a program, from a script
# that `startable` writes, and far.sh makes a native archive of the same calls.
native() { [ "$(uname -m)" = x86_64 ]; }
say_machine() { # one line, for the head of a run
    if native; then
        echo "on x86_64: the archive and the programs run as they are"
    else
        echo "on $(uname -m): proved here; the archive and the programs are x86-64 code and run under the kit's emulator;" \
            "hosts are native and reach the archive through hosts/far"
    fi
}
kit_home() ( # prints the kit's folder
    need_tool rt
    cd "${RATTLE_HOME:-$(dirname "$(readlink -f "$(command -v rt)")")/..}" && pwd
)
kit() ( # prints the kit's folder of tools for this machine: in on/, where a kit is for several processors
    home=$(kit_home)
    tools=$home/on/$(uname -m)/toolchain
    if native && [ ! -e "$tools" ]; then tools=$home/toolchain; fi
    need "$tools" "installing a Rattle kit for $(uname -m)"
    echo "$tools"
)
start_script() ( # PROGRAM SCRIPT: writes a script that starts an x86-64 program with the kit's loader, emulated where need be
    kit=$(kit) emulator=
    native || emulator="'$kit/bin/qemu-x86_64' "
    printf "#!/bin/sh\nexec %s'%s' --library-path '%s' '%s' \"\$@\"\n" "$emulator" "$kit/lib/ld-linux-x86-64.so.2" "$kit/lib" "$1" >"$2.$$"
    chmod +x "$2.$$"
    mv "$2.$$" "$2"                   # at once: another script may be starting it
)
startable() ( # PROGRAM: prints the file that starts it
    if native || [ "$(head -c 2 "$1")" = '#!' ]; then echo "$1"; exit; fi
    program=$(cd "$(dirname "$1")" && pwd)/$(basename "$1")
    script=$root/target/start/$(basename "$1")-$(echo "$program" | cksum | cut -d ' ' -f 1)
    mkdir -p "$root/target/start"
    start_script "$program" "$script"
    echo "$script"
)

compile_c() ( # SOURCE OUTPUT [SOURCE or FLAG..]: a C program with the archive in it
    need_tool "$CC"
    source=$1 output=$2
    shift 2
    mkdir -p "$(dirname "$output")"
    "$CC" -std=c11 -O2 -Wall -Wextra -Werror -I "$root/include" "$source" "$@" "$ARCHIVE" -o "$output"
)
compile_x86() ( # SOURCE OUTPUT [FLAG..]: an x86-64 object, by the kit, whose C library has no headers
    need_tool "$CC"
    kit=$(kit) source=$1 output=$2
    shift 2
    "$kit/bin/clang" --target=x86_64-linux-gnu -ffreestanding -nostdinc -isystem "$("$CC" -print-file-name=include)" \
        -std=c11 -O2 -Wall -Wextra -Werror -fPIC -I "$root/include" "$@" -c "$source" -o "$output"
)
link_x86() ( # OUTPUT OBJECT..: an x86-64 program of objects and archives, by the kit
    kit=$(kit) lib=$(kit)/lib output=$1
    shift
    "$kit/bin/ld.lld" -pie -dynamic-linker /lib64/ld-linux-x86-64.so.2 -o "$output" "$lib/Scrt1.o" "$lib/crti.o" "$lib/crtbeginS.o" \
        "$@" "$lib/libc.so.6" "$lib/libc_nonshared.a" "$lib/libgcc.a" "$lib/crtendS.o" "$lib/crtn.o"
)
