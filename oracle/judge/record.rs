//! A record as its parts and as its bytes, and a pair of them as a case to compare.

pub const M: u32 = 0;
pub const I: u32 = 1;
pub const D: u32 = 2;
pub const N: u32 = 3;
pub const S: u32 = 4;
pub const H: u32 = 5;
pub const P: u32 = 6;
pub const EQ: u32 = 7;
pub const X: u32 = 8;

/// The longest operation that 28 bits hold.
pub const LONGEST: u32 = (1 << 28) - 1;
/// The caps that a call accepts: from the least to the one that the published Rust has.
pub const LEAST_CAP: u32 = 2;
pub const CAP: u32 = 93;
/// The largest count that a call accepts.
pub const MOST: u64 = 18_446_744_073_692_774_399;
/// The largest end of a read on its reference.
pub const LAST: i64 = 2_147_483_646;

#[derive(Clone, Default)]
pub struct Read {
    pub ref_id: i32,
    pub pos: i32,
    /// With its closing zero byte, if it has one.
    pub name: Vec<u8>,
    pub flags: u16,
    /// Code and length.
    pub ops: Vec<(u32, u32)>,
    pub codes: Vec<u8>,
    /// The unused half byte behind an odd number of bases.
    pub spare: u8,
    pub quals: Vec<u8>,
    pub tags: Vec<u8>,
    /// Mapping quality, bin, mate and template length: fields that the step never reads.
    pub unread: [u8; 15],
}

/// Does the operation use the read, does it use the reference? (SAM's table; codes above 8 use nothing.)
pub fn uses(code: u32) -> (bool, bool) {
    (matches!(code, M | I | S | EQ | X), matches!(code, M | D | N | EQ | X))
}

impl Read {
    pub fn read_length(&self) -> u64 {
        self.ops.iter().filter(|o| uses(o.0).0).map(|o| u64::from(o.1)).sum()
    }

    pub fn reference_length(&self) -> u64 {
        self.ops.iter().filter(|o| uses(o.0).1).map(|o| u64::from(o.1)).sum()
    }

    pub fn encode(&self) -> Vec<u8> {
        let mut v =
            Vec::with_capacity(64 + self.name.len() + 4 * self.ops.len() + 2 * self.codes.len() + self.tags.len());
        v.extend(self.ref_id.to_le_bytes());
        v.extend(self.pos.to_le_bytes());
        v.push(self.name.len() as u8);
        v.extend(&self.unread[..3]);
        v.extend((self.ops.len() as u16).to_le_bytes());
        v.extend(self.flags.to_le_bytes());
        v.extend((self.codes.len() as u32).to_le_bytes());
        v.extend(&self.unread[3..]);
        v.extend(&self.name);
        for &(code, length) in &self.ops {
            v.extend((length << 4 | code).to_le_bytes());
        }
        for two in self.codes.chunks(2) {
            v.push(two[0] << 4 | two.get(1).unwrap_or(&self.spare));
        }
        v.extend(&self.quals);
        v.extend(&self.tags);
        v
    }
}

/// What a caller chooses: the strategies by their numbers, and the cap on what agreement under Consensus
/// gives.
#[derive(Clone, Copy, Debug)]
pub struct Ways {
    pub agreement: u32,
    pub disagreement: u32,
    pub cap: u32,
}

/// What goes into one pair call.
#[derive(Clone)]
pub struct Case {
    pub first: Vec<u8>,
    pub second: Vec<u8>,
    pub agreement: u32,
    pub disagreement: u32,
    pub cap: u32,
    pub counts: Vec<u8>,
}

impl Case {
    /// With the cap of the published Rust, and counts of 0.
    pub fn new(first: Vec<u8>, second: Vec<u8>, agreement: u32, disagreement: u32) -> Case {
        Case { first, second, agreement, disagreement, cap: CAP, counts: vec![0; 32] }
    }

    pub fn ways(&self) -> Ways {
        Ways { agreement: self.agreement, disagreement: self.disagreement, cap: self.cap }
    }
}

pub fn pack(counts: [u64; 4]) -> Vec<u8> {
    counts.iter().flat_map(|c| c.to_le_bytes()).collect()
}

pub fn unpack(bytes: &[u8]) -> [u64; 4] {
    std::array::from_fn(|i| u64::from_le_bytes(bytes[8 * i..8 * i + 8].try_into().unwrap()))
}

/// End to end, each behind its size, as in BAM.
pub fn frame(records: &[Vec<u8>]) -> Vec<u8> {
    records.iter().flat_map(|r| [&(r.len() as u32).to_le_bytes()[..], r].concat()).collect()
}

pub fn hex(bytes: &[u8]) -> String {
    bytes.iter().map(|b| format!("{b:02X}")).collect()
}

/// Two digits a byte; blanks don't count.
pub fn unhex(text: &str) -> Vec<u8> {
    let digits: Vec<u8> = text.bytes().filter(|b| !b.is_ascii_whitespace()).collect();
    digits
        .chunks(2)
        .map(|d| u8::from_str_radix(std::str::from_utf8(d).unwrap(), 16).expect("hexadecimal digits"))
        .collect()
}
