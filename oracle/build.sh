#!/bin/sh
# Builds target/oracle/judge: the published Rust, compiled unchanged where it stands, our judge
# around it, and the archive of the exported calls.
#
#   oracle/build.sh [PUBLISHED [ARCHIVE]]
#
# PUBLISHED is the folder that holds crates/fgumi-consensus and crates/fgumi-raw-bam
# (default ../shared/docs/src beside the repository), ARCHIVE the static library
# (default target/staticlib/liboverlap_c.a). Plain rustc, no crates from anywhere.
set -eu
. "$(dirname "$0")/../scripts/settings.sh"
PUBLISHED=${1:-$PUBLISHED} ARCHIVE=${2:-$ARCHIVE}
need "$PUBLISHED/crates/fgumi-consensus/src/overlapping.rs" "naming the folder of the published Rust with PUBLISHED"
need_rustc
need_archive
published=$(cd "$PUBLISHED" && pwd)
archive=$(cd "$(dirname "$ARCHIVE")" && pwd)/$(basename "$ARCHIVE")
out=$root/target/oracle
mkdir -p "$out"
take_casts "$out"

compile() { # NAME SOURCE OUTPUT FLAGS...
    name=$1 source=$2 output=$3
    shift 3
    rustc --edition 2024 -C opt-level=3 --crate-name "$name" "$source" -o "$output" "$@"
}
library() { # FOLDER NAME SOURCE FLAGS...
    folder=$1 name=$2 source=$3
    shift 3
    compile "$name" "$source" "$folder/lib$name.rlib" --crate-type rlib -L "$folder" --cap-lints allow "$@"
}

# The published files become modules of crate roots that name them where they stand.
cat >"$out/raw_bam_root.rs" <<END
#[path = "$published/crates/fgumi-raw-bam/src/cigar.rs"]
pub mod cigar;
#[path = "$published/crates/fgumi-raw-bam/src/fields.rs"]
pub mod fields;
#[path = "$root/oracle/standins/raw_bam.rs"]
mod standins;
pub use cigar::{alignment_end_from_raw, alignment_start_from_raw};
pub use fields::{RawRecordView, flags, qual_offset, seq_offset};
pub use standins::{RawRecord, set_base};
END
cat >"$out/consensus_root.rs" <<END
#[path = "$published/crates/fgumi-consensus/src/overlapping.rs"]
pub mod overlapping;
#[path = "$root/oracle/standins/consensus.rs"]
mod standins;
use standins::{hashing, phred};
#[path = "$root/oracle/standins/entry.rs"]
pub mod entry;
END

for build in checked plain; do
    folder=$out/$build
    mkdir -p "$folder"
    case $build in
    checked) checks=on ;;
    plain) checks=off ;;
    esac
    set -- -C "overflow-checks=$checks" -C "debug-assertions=$checks" -C "metadata=$build"
    for name in anyhow ahash memchr; do
        library "$folder" $name "$root/oracle/standins/$name.rs" "$@"
    done
    with_casts library "$folder" fgumi_raw_bam "$out/raw_bam_root.rs" "$@" --extern memchr="$folder/libmemchr.rlib"
    with_casts library "$folder" published_$build "$out/consensus_root.rs" "$@" \
        --extern anyhow="$folder/libanyhow.rlib" --extern ahash="$folder/libahash.rlib" \
        --extern fgumi_raw_bam="$folder/libfgumi_raw_bam.rlib"
done
library "$out" overlap "$root/hosts/rust/overlap.rs"
compile judge "$root/oracle/judge/main.rs" "$out/judge" -L "$out" -L "$out/checked" -L "$out/plain" \
    --extern overlap="$out/liboverlap.rlib" \
    --extern published_checked="$out/checked/libpublished_checked.rlib" \
    --extern published_plain="$out/plain/libpublished_plain.rlib" \
    -C link-arg="$archive"
echo "built target/oracle/judge over $(basename "$archive")"
