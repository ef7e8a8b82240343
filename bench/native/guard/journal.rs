//! The journal: its bytes in memory, and its records.

/// Numbers of notes of the units.
pub type Counts = [u32; 8];

pub const NONE: Counts = [0; 8];
pub const PLACES: usize = 6;

/// What a record has in front of it and behind it: the gate and the length.
const HEADER: &[u8] = b"XFSJRNL2\0";

/// A record, as the journal's list has it.
#[allow(dead_code)]
pub enum Record {
    Issue { number: u64, word: u64 },
    Clear,
    Start { issues: u64, places: Box<[Counts; PLACES]> },
    Bind { token: String },
    Order { kind: u8, counts: Counts },
    Done { moved: Counts, diverted: Counts },
    Load { unit: u8, count: u32 },
}

pub struct Journal {
    bytes: Vec<u8>,
    records: Vec<Record>,
}

fn put_counts(bytes: &mut Vec<u8>, counts: &Counts) {
    counts.iter().for_each(|count| bytes.extend_from_slice(&count.to_be_bytes()));
}

impl Record {
    /// Adds the record's body.
    fn put(&self, bytes: &mut Vec<u8>) {
        match self {
            Record::Issue { number, word } => {
                bytes.push(b'I');
                bytes.extend_from_slice(&number.to_be_bytes());
                bytes.extend_from_slice(&word.to_be_bytes());
            }
            Record::Clear => bytes.push(b'C'),
            Record::Start { issues, places } => {
                bytes.push(b'K');
                bytes.extend_from_slice(&issues.to_be_bytes());
                places.iter().for_each(|counts| put_counts(bytes, counts));
            }
            Record::Bind { token } => {
                bytes.push(b'T');
                bytes.extend_from_slice(token.as_bytes());
            }
            Record::Order { kind, counts } => {
                bytes.extend_from_slice(&[b'O', *kind]);
                put_counts(bytes, counts);
            }
            Record::Done { moved, diverted } => {
                bytes.push(b'D');
                put_counts(bytes, moved);
                put_counts(bytes, diverted);
            }
            Record::Load { unit, count } => {
                bytes.extend_from_slice(&[b'L', *unit]);
                bytes.extend_from_slice(&count.to_be_bytes());
            }
        }
    }
}

impl Journal {
    pub fn new() -> Journal {
        Journal { bytes: HEADER.to_vec(), records: Vec::new() }
    }

    /// Writes a record with a closed gate behind it, and then opens the one before it.
    pub fn append(&mut self, record: Record) {
        let gate = self.bytes.len() - 1;
        self.bytes.extend_from_slice(&[0; 2]);
        record.put(&mut self.bytes);
        let length = (self.bytes.len() - gate - 3) as u16;
        self.bytes[gate + 1..gate + 3].copy_from_slice(&length.to_be_bytes());
        self.bytes.push(0);
        self.bytes[gate] = 1;
        self.records.push(record);
    }

    pub fn records(&self) -> u64 {
        self.records.len() as u64
    }

    /// Whether there is room for the records of a command.
    pub fn has_room(&self) -> bool {
        self.records.len() + 3 <= 1_000_000 && self.bytes.len() + 2_048 <= 17_179_869_184
    }
}
