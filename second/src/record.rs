//! 01, "Derivation records": "One byte of kind, then a body whose length the kind fixes.
//! Numbers are big-endian."

#[derive(Clone, Copy, Debug, PartialEq, Eq)]
pub enum Record {
    /// M: "the minimum is this number".
    Minimum(u64),
    /// N: "no assignment meets the hard clauses".
    Infeasible,
    /// E: "extend the clause of this number".
    Extend(u16),
    /// C: "contradiction at this variable".
    Contradict(u16),
    /// Q: "close the branch, go to the next".
    Close,
}

/// What a derivation claims, from its first record.
#[derive(Clone, Copy, Debug, PartialEq, Eq)]
pub enum Claim {
    Minimum(u64),
    Infeasible,
}

impl Claim {
    pub fn record(self) -> Record {
        match self {
            Claim::Minimum(m) => Record::Minimum(m),
            Claim::Infeasible => Record::Infeasible,
        }
    }
}

impl Record {
    pub fn bytes(self) -> Vec<u8> {
        let (kind, body) = match self {
            Record::Minimum(m) => (0x4D, m.to_be_bytes().to_vec()),
            Record::Infeasible => (0x4E, Vec::new()),
            Record::Extend(number) => (0x45, number.to_be_bytes().to_vec()),
            Record::Contradict(variable) => (0x43, variable.to_be_bytes().to_vec()),
            Record::Close => (0x51, Vec::new()),
        };
        let mut bytes = vec![kind];
        bytes.extend(body);
        bytes
    }

    /// The whole record that starts these bytes; none for an unknown kind or one cut short.
    pub fn first_of(bytes: &[u8]) -> Option<Record> {
        let (kind, body) = bytes.split_first()?;
        match kind {
            0x4D => Some(Record::Minimum(number(body, 8)?)),
            0x4E => Some(Record::Infeasible),
            0x45 => Some(Record::Extend(number(body, 2)? as u16)),
            0x43 => Some(Record::Contradict(number(body, 2)? as u16)),
            0x51 => Some(Record::Close),
            _ => None,
        }
    }
}

/// The big-endian number in the first `length` bytes, none where there are fewer.
fn number(body: &[u8], length: usize) -> Option<u64> {
    let bytes = body.get(..length)?;
    Some(bytes.iter().fold(0, |n, byte| n * 256 + u64::from(*byte)))
}

/// A derivation from its records.
pub fn derivation(records: &[Record]) -> Vec<u8> {
    records.iter().flat_map(|record| record.bytes()).collect()
}
