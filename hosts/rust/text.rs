//! The answers in words, those of docs/REFUSALS.md. The table is the one that hosts/c/overlap_text.h reads.

const TABLE: &str = include_str!("../c/answers.def");

/// So many operations fill the longest record.
const OPERATIONS: u32 = 16_376;

/// The call that gave an answer; a number means one thing from one call and another from another.
#[derive(Clone, Copy, Debug, PartialEq, Eq)]
pub enum Call {
    Pair,
    Reason,
    Filed,
    Trailer,
}

impl Call {
    /// Its name in the table.
    fn key(self) -> &'static str {
        match self {
            Call::Pair => "PAIR",
            Call::Reason => "REASON",
            Call::Filed => "FILED",
            Call::Trailer => "TRAILER",
        }
    }

    /// Its name in include/overlap.h.
    fn name(self) -> &'static str {
        match self {
            Call::Pair => "overlap_call",
            Call::Reason => "overlap_reason_call",
            Call::Filed => "overlap_filed_call",
            Call::Trailer => "overlap_trailer_call",
        }
    }
}

/// What an answer of this call means. One that the call never gives gets a text that says so.
pub fn text(call: Call, answer: u32) -> String {
    let operation = if call == Call::Reason { answer / 10_000 } else { 0 };
    let found = match answer - 10_000 * operation {
        0..1000 => plain(call, answer).map(str::to_string),
        code => refusal(call, code % 100, (code - 1000) / 100, operation),
    };
    found.unwrap_or_else(|| format!("answer {answer} is none of {}'s", call.name()))
}

/// The words for the number of a refusal, as the programs write it in `no NUMBER PLACE`.
pub fn words(number: u32) -> Option<&'static str> {
    row(number).map(|(_, words)| words)
}

/// The text for a refusal of this call, if it refuses with this number at this place and, where it names one, at
/// this operation; an operation is else 0.
pub(crate) fn refusal(call: Call, number: u32, place: u32, operation: u32) -> Option<String> {
    let (parts, words) = row(number)?;
    let given = parts[2].split(" | ").any(|name| name == call.key());
    let record = match (parts[1], call, place) {
        ("NO_RECORD", _, 0) => String::new(),
        ("RECORD", Call::Pair | Call::Reason, 1) => ", first record".into(),
        ("RECORD", Call::Pair | Call::Reason, 2) => ", second record".into(),
        ("RECORD", Call::Filed | Call::Trailer, 0..256) | ("RECORD_256", _, 256) => format!(", record with index {place}"),
        _ => return None,
    };
    let operation = match (call, number, operation) {
        (Call::Reason, 5, 0..OPERATIONS) => format!(", operation with index {operation}"),
        (_, _, 0) => String::new(),
        _ => return None,
    };
    given.then(|| format!("refused: {words} (number {number}{record}{operation})"))
}

/// The words for an answer below 1000.
fn plain(call: Call, answer: u32) -> Option<&'static str> {
    lines("ANSWER").find(|(parts, _)| parts[0] == call.key() && parts[1].parse() == Ok(answer)).map(|(_, words)| words)
}

/// The refusal of this number: number, place and calls as the table has them, and the words.
fn row(number: u32) -> Option<(Vec<&'static str>, &'static str)> {
    lines("REFUSAL").find(|(parts, _)| parts[0].parse() == Ok(number))
}

/// The table's lines of one kind: the parts before the words, and the words.
fn lines(kind: &str) -> impl Iterator<Item = (Vec<&'static str>, &'static str)> {
    TABLE.lines().filter_map(move |line| {
        let (head, words) = line.strip_prefix(kind)?.strip_prefix('(')?.split_once(", \"")?;
        Some((head.split(", ").collect(), words.strip_suffix("\")")?))
    })
}
