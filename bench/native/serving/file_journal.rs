//! A journal in a file: a record is two writes and two syncs (docs/JOURNAL.md).

use crate::machine::{HEADER, Journal, frame};
use std::fs::File;
use std::io::Result;
use std::os::unix::fs::FileExt;

pub struct FileJournal {
    file: File,
    length: u64,
    records: u64,
    bytes: Vec<u8>,
}

impl FileJournal {
    /// An empty journal in a new file.
    pub fn create(path: &str) -> Result<FileJournal> {
        let file = File::create_new(path)?;
        let journal = FileJournal { file, length: HEADER.len() as u64, records: 0, bytes: Vec::new() };
        journal.write(0, HEADER)?;
        Ok(journal)
    }

    fn write(&self, at: u64, bytes: &[u8]) -> Result<()> {
        self.file.write_all_at(bytes, at)?;
        self.file.sync_all()
    }
}

impl Journal for FileJournal {
    fn append(&mut self, body: &[&[u8]]) {
        self.bytes.clear();
        frame(&mut self.bytes, body);
        let written = self.write(self.length, &self.bytes).and_then(|()| self.write(self.length - 1, &[1]));
        written.expect("the journal can't be written");
        self.length += self.bytes.len() as u64;
        self.records += 1;
    }

    fn records(&self) -> u64 {
        self.records
    }

    fn len(&self) -> u64 {
        self.length
    }
}
