//! Document 02, "#101 Write job files": a job file from records in lent buffers,
//! and the records of a job file.

use crate::answers::{
    accept, accept_counts, accept_records, Refusal, BUFFER_TOO_SHORT, COUNT_OUT_OF_RANGE,
    OUTPUT_TOO_SHORT,
};
use crate::job_file::{
    read_numbers, Header, HEADER_BYTES, LOAD_FIELDS, MOST_BYTES, WALL_BYTES, WALL_FIELDS,
};

/// The records of a job, or what is to become one: the walls' one behind the
/// other, and the loads'.
#[derive(Clone, Debug, Default, PartialEq, Eq)]
pub struct Records {
    pub walls: Vec<u32>,
    pub loads: Vec<u32>,
}

/// The job file of some records, at the start of a lent buffer, and how many
/// bytes it has. What stands behind it stays, and all of it where the records
/// are refused.
pub fn write(walls: &[u32], loads: &[u32], out: &mut [u8]) -> Result<usize, Refusal> {
    let wall_records = whole_records::<WALL_FIELDS>(walls)?;
    let load_records = whole_records::<LOAD_FIELDS>(loads)?;
    accept_counts(wall_records.len(), load_records.len())?;
    accept_records(wall_records.iter().copied(), load_records.iter().copied())?;
    let header = Header::due(wall_records.len(), load_records.len());
    let length = usize::from(header.length);
    let file = out.get_mut(..length).ok_or(OUTPUT_TOO_SHORT)?;
    let (start, records) = file.split_at_mut(HEADER_BYTES);
    for (place, number) in start.as_chunks_mut().0.iter_mut().zip(header.numbers()) {
        *place = number.to_le_bytes();
    }
    let numbers = walls.iter().chain(loads);
    for (place, number) in records.as_chunks_mut().0.iter_mut().zip(numbers) {
        *place = number.to_le_bytes();
    }
    Ok(length)
}

/// A buffer record by record, with 3 where it ends within one.
fn whole_records<const N: usize>(buffer: &[u32]) -> Result<&[[u32; N]], Refusal> {
    match buffer.as_chunks() {
        (records, []) => Ok(records),
        _ => Err(COUNT_OUT_OF_RANGE),
    }
}

/// The records of a job file.
pub fn records(input: &[u8]) -> Result<Records, Refusal> {
    let job = accept(input)?;
    let (walls, loads) = input[HEADER_BYTES..].split_at(WALL_BYTES * job.walls.len());
    Ok(Records {
        walls: read_numbers(walls),
        loads: read_numbers(loads),
    })
}

/// The records of a job file, at the start of two lent buffers. What stands
/// behind them stays, and all of it where the job is refused.
pub fn take_apart(input: &[u8], walls: &mut [u32], loads: &mut [u32]) -> Result<(), Refusal> {
    let records = records(input)?;
    let walls = walls.get_mut(..records.walls.len());
    let loads = loads.get_mut(..records.loads.len());
    let (Some(walls), Some(loads)) = (walls, loads) else {
        return Err(BUFFER_TOO_SHORT);
    };
    walls.copy_from_slice(&records.walls);
    loads.copy_from_slice(&records.loads);
    Ok(())
}

/// A job file taken apart and written again.
pub fn rewrite(input: &[u8]) -> Result<Vec<u8>, Refusal> {
    let Records { walls, loads } = records(input)?;
    let mut out = vec![0; MOST_BYTES];
    let written = write(&walls, &loads, &mut out)?;
    out.truncate(written);
    Ok(out)
}
