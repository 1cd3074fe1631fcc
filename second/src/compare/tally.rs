//! How many inputs were compared and what differed.

/// Differences that are described, for each kind of input.
const SHOWN: usize = 10;

pub struct Tally {
    pub kind: &'static str,
    pub inputs: u64,
    pub differences: u64,
    pub shown: Vec<String>,
    /// Lines to be printed whatever comes out.
    pub notes: Vec<String>,
}

impl Tally {
    pub fn new(kind: &'static str) -> Tally {
        Tally { kind, inputs: 0, differences: 0, shown: Vec::new(), notes: Vec::new() }
    }

    /// Counts one input, and a difference where the sides are not the same.
    #[inline]
    pub fn input(&mut self, same: bool, describe: impl FnOnce() -> String) {
        self.inputs += 1;
        if !same {
            self.difference(describe);
        }
    }

    /// Counts a difference that belongs to no single input.
    #[cold]
    pub fn difference(&mut self, describe: impl FnOnce() -> String) {
        self.differences += 1;
        if self.shown.len() < SHOWN {
            self.shown.push(describe());
        }
    }

    pub fn add(&mut self, other: Tally) {
        self.inputs += other.inputs;
        self.differences += other.differences;
        let room = SHOWN - self.shown.len();
        self.shown.extend(other.shown.into_iter().take(room));
        self.notes.extend(other.notes);
    }

    /// Notes an example and whether both sides gave what the paper prints.
    pub fn example(&mut self, name: &str, good: bool) {
        self.notes.push(format!("bench: {name} {}", if good { "ok" } else { "FAILED" }));
        if !good {
            self.difference(|| format!("bench example: {name}"));
        }
    }
}

/// Bytes as hex, shortened in the middle.
pub fn hex(bytes: &[u8]) -> String {
    const WHOLE: usize = 72;
    let digits = |part: &[u8]| part.iter().map(|byte| format!("{byte:02X}")).collect::<String>();
    if bytes.is_empty() {
        return "-".to_string();
    }
    if bytes.len() <= WHOLE {
        return digits(bytes);
    }
    let (front, back) = (&bytes[..WHOLE - 8], &bytes[bytes.len() - 8..]);
    format!("{}..{} ({} bytes)", digits(front), digits(back), bytes.len())
}

/// Where two buffers differ first.
pub fn first_difference(a: &[u8], b: &[u8]) -> String {
    match a.iter().zip(b).position(|(a, b)| a != b) {
        Some(at) => format!("differ first at {at}: {:02X} and {:02X}", a[at], b[at]),
        None if a.len() == b.len() => "same".to_string(),
        None => format!("lengths {} and {}", a.len(), b.len()),
    }
}
