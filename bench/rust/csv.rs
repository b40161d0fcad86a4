//! The writer of plain records, as the crate `csv` has it. Nothing is quoted.
#![allow(warnings)]

use stand_in::Vec;

#[derive(Debug)]
pub struct Error;

pub struct Unwritten;

impl Unwritten {
    pub fn into_error(self) -> Error {
        Error
    }
}

pub struct Writer<W>(W);

pub struct WriterBuilder;

impl WriterBuilder {
    pub fn new() -> Self {
        WriterBuilder
    }

    pub fn from_writer(self, into: Vec<u8>) -> Writer<Vec<u8>> {
        Writer(into)
    }
}

impl Writer<Vec<u8>> {
    pub fn write_fields(&mut self, fields: &[&[u8]]) -> Result<(), Error> {
        for (place, field) in fields.iter().enumerate() {
            if place > 0 {
                self.0.push(b',');
            }
            self.0.extend_from_slice(field);
        }
        self.0.push(b'\n');
        Ok(())
    }

    pub fn into_inner(self) -> Result<Vec<u8>, Unwritten> {
        Ok(self.0)
    }
}
