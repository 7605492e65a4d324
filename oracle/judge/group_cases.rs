//! Inputs for the program: random groups, and every limit of a group.
use crate::random;
use crate::record::{Read, frame};
use crate::rng::Rng;

const FLAGS: [u16; 12] = [64, 128, 64, 128, 64, 128, 192, 0, 64 | 256, 128 | 2048, 64 | 2048, 64 | 16];

fn name(r: &mut Rng, pool: u64) -> Vec<u8> {
    let mut name = match r.below(pool + 2) {
        0 if r.one_in(2) => return vec![],
        0 => vec![],
        1 => vec![b'n'; r.pick(&[1, 2, 253, 254])],
        k => format!("q{k}").into_bytes(),
    };
    // the last byte is no part of the name, whatever it is
    name.push(if r.one_in(8) { r.next() as u8 } else { 0 });
    name
}

/// Records of a group: mates under common names, and all that can come between them.
fn records(r: &mut Rng) -> Vec<Vec<u8>> {
    if r.one_in(200) {
        // very many, very short
        let n = r.range(254, 258) as usize;
        return (0..n)
            .map(|k| {
                let mut x = Read { pos: r.below(3) as i32, flags: r.pick(&FLAGS), ..Default::default() };
                x.name = format!("{}\0", k / 2).into_bytes();
                (x.ops, x.codes, x.quals) = (vec![(0, 2)], vec![1 << r.below(4), 1], vec![r.next() as u8, 30]);
                x.encode()
            })
            .collect();
    }
    let pairs = r.pick(&[0, 1, 1, 2, 2, 3, 5, 12]);
    let mut all = Vec::new();
    for _ in 0..pairs {
        if r.one_in(40) {
            let case = random::extreme(r);
            all.extend([case.first, case.second]);
            continue;
        }
        let (mut a, mut b) = random::reads(r);
        a.name = name(r, pairs);
        b.name = if r.one_in(8) { name(r, pairs) } else { a.name.clone() };
        let (usual, rare) = (r.next() as u16 & 0x633, r.next() as u16);
        (a.flags, b.flags) = (usual | 64, usual | 128);
        if r.one_in(3) {
            (a.flags, b.flags) = (r.pick(&FLAGS), if r.one_in(3) { rare } else { r.pick(&FLAGS) });
        }
        all.extend([a.encode(), b.encode()]);
    }
    for k in (1..all.len()).rev() {
        if r.one_in(2) {
            all.swap(k, r.below(k as u64 + 1) as usize);
        }
    }
    all
}

/// Standard input for the program; a part of them with damage.
pub fn input(r: &mut Rng) -> Vec<u8> {
    let mut all = records(r);
    if r.one_in(5) && !all.is_empty() {
        let k = r.below(all.len() as u64) as usize;
        random::damage(r, &mut all[k]);
    }
    let mut group = frame(&all);
    if r.one_in(100) && group.len() < 65_000 {
        // up to the largest input and one past it, by the tags of a last record
        let rest = r.range(65_533, 65_537) as usize - group.len() - 6;
        group.extend(frame(&[vec![0; rest]]));
    }
    match r.below(60) {
        0 => group.truncate(r.below(group.len() as u64 + 1) as usize),
        1 => group.extend(vec![0; 1 + r.below(4) as usize]),
        2 if !group.is_empty() => {
            let at = r.below(4) as usize;
            group[at] = group[at].wrapping_add(r.pick(&[1, 255, 128]));
        }
        _ => {}
    }
    let digit = |r: &mut Rng| if r.one_in(60) { r.pick(b"3/ a\x00") } else { b'0' + r.below(3) as u8 };
    let mut input = vec![digit(r), digit(r)];
    input.extend(group);
    if r.one_in(200) {
        input.truncate(r.below(3) as usize);
    }
    input
}

/// Each limit of the group and the program, at it and one off.
pub fn limits() -> Vec<Vec<u8>> {
    let (a, b) = crate::limits::plain();
    let (mut lone, mut last) = (a.clone(), b.clone());
    (lone.name, lone.ops[0].0) = (b"lone\0".to_vec(), 9);
    last.ops[0].1 = 0;
    let (a, b, lone, last) = (a.encode(), b.encode(), lone.encode(), last.encode());
    let bare = |n: usize| vec![vec![0; 32]; n];
    let with = |digits: &str, group: Vec<u8>| [digits.as_bytes(), &group].concat();
    let pair = frame(&[a.clone(), b.clone()]);
    let mut all = vec![
        with("", vec![]),
        with("0", vec![]),
        with("00", vec![]),
        with("03", pair.clone()),
        with("30", pair.clone()),
        with("0 ", pair.clone()),
        with("/0", pair.clone()),
        with("00", frame(&bare(255))),
        with("00", frame(&bare(256))),
        with("00", frame(&bare(257))),
        with("00", frame(&[lone.clone(), a.clone(), b.clone()])),
        with("00", frame(&[a.clone(), b.clone(), lone.clone()])),
        with("00", frame(&[a.clone(), last.clone()])),
        with("00", frame(&[last, a.clone(), lone])),
        with("00", frame(&[b.clone(), a.clone()])),
        with("00", frame(&[a.clone(), a.clone(), b.clone(), b.clone()])),
        with("00", frame(&[vec![0; 31]])),
        with("00", frame(&[vec![]])),
    ];
    for both in ["00", "01", "02", "10", "11", "12", "20", "21", "22"] {
        all.push(with(both, pair.clone()));
    }
    for cut in 1..=pair.len() {
        all.push(with("00", pair[..cut].to_vec()));
    }
    for more in 1..=5 {
        all.push(with("00", [pair.clone(), vec![0; more]].concat()));
        all.push(with("00", [frame(&bare(256)), vec![0; more]].concat()));
    }
    for n in [u32::MAX, u32::MAX - 3, 65_537, 49, 47] {
        all.push(with("00", [&n.to_le_bytes()[..], &pair[4..]].concat()));
    }
    for n in 65_535..=65_537 {
        all.push(with("00", frame(&[vec![0; n - 6]])));
        all.push(with("99", vec![255; n - 2]));
        all.push(with("00", [pair.clone(), frame(&[vec![0; n - 6 - pair.len()]])].concat()));
    }
    all
}
