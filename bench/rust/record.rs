//! Records without quotes, in the place of the reader of `csv`.
use stand_in::{Global, NoMemory, Vec};

pub fn records(alloc: Global, bytes: &[u8]) -> Result<Vec<Vec<Vec<u8>>>, NoMemory> {
    let mut rows = Vec::new(alloc);
    for line in bytes.split(|byte| *byte == b'\n') {
        if line.is_empty() {
            continue;
        }
        let mut row = Vec::new(alloc);
        for field in line.split(|byte| *byte == b',') {
            row.push(Vec::from_slice(alloc, field)?)?;
        }
        rows.push(row)?;
    }
    Ok(rows)
}
