#!/bin/sh
# For whoever works on x86-64: runs a command of the repository as on an Arm machine, in a Debian for arm64 all of whose
# programs run under Debian's qemu-user. It shows that the scripts go their way for Arm, that the C and the Rust compile
# and link there, and that hosts/far works. It doesn't show the proofs, as the archive and the programs are those of
# target/ here, nor any time: the kit's emulator is emulated in its turn, and starts a program in 4 seconds.
#   scripts/as-arm.sh make               makes the Debian: some 8 minutes and 1 GB
#   scripts/as-arm.sh COMMAND [WORD..]   runs a command in it, at the repository's root: sh tests/hosts.sh
# Needs root, Debian, Linux 6.7 or newer, and a kit that has tools for aarch64, as older ones had. What the command makes
# stays in ARM_ROOT/made, a folder for each clone of the repository. No part of the gate.
#   ARM_ROOT   the folder of that Debian (default ../armroot beside the repository)
#   QUICK      not empty: x86-64 programs run as they are, and not under the kit's emulator
set -eu
. "$(dirname "$0")/settings.sh"
arm=${ARM_ROOT:-$root/../armroot}
made=$arm/made$root
home=$(kit_home)
need "$home/on/aarch64/toolchain" "installing a Rattle kit that has tools for aarch64, which today's has not"
[ "$(id -u)" = 0 ] || missing "the right to do this" "being root"

# A user namespace of our own, with all users in it, may say what runs programs for arm64. The rest of the machine
# doesn't notice. Its map has to be written from outside: by the process in the background.
enter() { # WORD..
    go=$(mktemp -u)
    mkfifo "$go"
    { read -r _ <"$go"; for map in uid_map gid_map; do echo 0 0 65536 >/proc/$$/$map; done; echo >"$go"; rm "$go"; } &
    # shellcheck disable=SC2016 # the words are for the inner shell to expand
    exec unshare --user sh -c 'echo >"$0"; read -r _ <"$0"; exec unshare --mount --pid --fork --mount-proc "$@"' "$go" sh "$0" inside "$@"
}
inside() { # WORD..
    mount -t binfmt_misc none /proc/sys/fs/binfmt_misc
    cat /usr/lib/binfmt.d/qemu-aarch64.conf >/proc/sys/fs/binfmt_misc/register
    if [ "$1" = make ]; then
        exec mmdebstrap --mode=root --arch=arm64 --variant=apt --include=gcc,libc6-dev,python3,rustc trixie "$arm"
    fi
    for folder in /proc /dev "$home" "$root" "$PUBLISHED"; do
        [ -d "$folder" ] || continue
        mkdir -p "$arm$folder"
        mount --rbind "$folder" "$arm$folder"
    done
    mount --rbind "$made" "$arm$root/target"
    if [ -n "${QUICK:-}" ]; then
        printf '#!/bin/sh\nexec "$@"\n' >"$arm/tmp/quick"
        chmod +x "$arm/tmp/quick"
        mount --bind "$arm/tmp/quick" "$arm$home/on/aarch64/toolchain/bin/qemu-x86_64"
    fi
    # shellcheck disable=SC2016 # the words are for the inner shell to expand
    exec chroot "$arm" /usr/bin/env -i PATH="$home/bin:/usr/sbin:/usr/bin" HOME=/root PUBLISHED="$PUBLISHED" \
        sh -c 'cd "$0" && exec "$@"' "$root" "$@"
}
case ${1:-} in
'') echo "as-arm.sh: make, or a command" >&2; exit 2 ;;
inside) shift; inside "$@" ;;
make)
    apt-get install -y --no-install-recommends mmdebstrap arch-test qemu-user-static
    enter make ;;
*)
    need "$arm/usr/bin/rustc" "scripts/as-arm.sh make"
    need_archive; need_program; need_program_filed
    mkdir -p "$made"
    cp -r "$root/target/bin" "$root/target/staticlib" "$made"
    enter "$@" ;;
esac
