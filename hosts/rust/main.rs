//! A Rust host: calls the step on one pair, with the cap of a sequencer whose scale stops at 40 and with the largest cap,
//! and prints what came out, and why the pair moved apart doesn't overlap; then files the same pair, has it corrected, and
//! sends it again.
use overlap::{Agreement, CAP_MAX, Counts, Disagreement, Refusal, call, correct_filed, reason, trailer};

fn main() -> Result<(), Refusal> {
    // Four bases at positions 10 to 13 and four at 11 to 14, counted from 1.
    let mut first = record(9, 65, [0x12, 0x48], [30, 30, 30, 30]);
    let mut second = record(10, 129, [0x24, 0x11], [20, 30, 10, 40]);
    let mut counts = Counts::default();

    let mut filed: Vec<u8> = [&first, &second].into_iter().flat_map(|r| framed(r)).collect();
    let trailer = trailer(&filed, Agreement::Consensus, Disagreement::Consensus)?;
    filed.extend(trailer);

    show("before", &first, &second);
    let (mut first_40, mut second_40) = (first.clone(), second.clone());
    call(&mut first_40, &mut second_40, Agreement::Consensus, Disagreement::Consensus, 40, &mut Counts::default());
    show("cap 40", &first_40, &second_40);
    let answer = call(&mut first, &mut second, Agreement::Consensus, Disagreement::Consensus, CAP_MAX, &mut counts);
    show("cap 93", &first, &second);
    println!("{answer}, {counts:?}");

    let apart = record(50, 129, [0x24, 0x11], [20, 30, 10, 40]);
    println!("the second at position 51: {}", reason(&first, &apart));
    let unmapped = record(50, 133, [0x24, 0x11], [20, 30, 10, 40]);
    println!("the second unmapped: {}", reason(&first, &unmapped));

    let (mut once, mut again) = (vec![0; filed.len()], vec![0; filed.len()]);
    println!("filed: {}", correct_filed(&filed, &mut once, &mut counts));
    println!("sent again: {}, {counts:?}", correct_filed(&once, &mut again, &mut counts));
    println!("torn off: {}", correct_filed(&once[..40], &mut again, &mut counts));
    Ok(())
}

/// A record behind its size.
fn framed(r: &[u8]) -> Vec<u8> {
    [&(r.len() as u32).to_le_bytes(), r].concat()
}

/// A record named "a" with one operation, 4M, on reference 0.
fn record(pos: i32, flags: u16, bases: [u8; 2], quals: [u8; 4]) -> Vec<u8> {
    let mut r = vec![0; 32];
    r[4..8].copy_from_slice(&pos.to_le_bytes());
    r[8] = 2; // name length with its closing zero byte
    r[12] = 1; // operation count
    r[14..16].copy_from_slice(&flags.to_le_bytes());
    r[16] = 4; // l_seq
    r.extend(b"a\0");
    r.extend((4u32 * 16).to_le_bytes());
    r.extend(bases);
    r.extend(quals);
    r
}

/// Bases and qualities of both, the second one place to the right.
fn show(when: &str, first: &[u8], second: &[u8]) {
    let base = |r: &[u8], i: usize| b"=ACMGRSVTWYHKDBN"[usize::from(r[38 + i / 2] >> (4 - i % 2 * 4) & 15)] as char;
    let line = |r: &[u8]| -> String { (0..4).map(|i| format!("  {} {:2}", base(r, i), r[40 + i])).collect() };
    println!("first  {when}{}", line(first));
    println!("second {when}      {}", line(second));
}
