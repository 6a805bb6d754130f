//! Our lookup-table reader and moxcms's on colour tables at the limit of 10,000,000 entries. No job of `answers` is long enough for
//! them: the program makes each tag itself, and calls our reader through its exported function.
mod khalyksor;

use khalyksor::*;
use oracle::call::{Value, call};
use oracle::{CmsError, LutStore, LutWarehouse, ParsingOptions};
use std::process::exit;

const HEAD: usize = 48; // in front of the colour table
const CLUT_HEAD: usize = 20;
const CLUT_AT: u8 = HEAD as u8;

/// `mAB ` from three channels, with a colour table and no other part. No two entries next to each other are equal.
fn tag(grid: [u8; 3], outputs: u8, entry_size: u8) -> Vec<u8> {
    let mut tag = vec![0; HEAD + CLUT_HEAD];
    tag[..4].copy_from_slice(b"mAB ");
    (tag[8], tag[9], tag[27]) = (3, outputs, CLUT_AT);
    tag[HEAD..HEAD + 3].copy_from_slice(&grid);
    tag[HEAD + 16] = entry_size;
    let entries = grid.iter().chain([&outputs]).map(|factor| usize::from(*factor)).product::<usize>();
    tag.extend((0..entries * usize::from(entry_size)).map(|k| (k % 251) as u8));
    tag
}

/// Our status, and the range and entry size of the colour table.
fn ours(tag: &[u8]) -> (u32, [u64; 3]) {
    let (mut slots, mut out) = ([0u32; KHALYKSOR_CURVE_RECORD_WORDS], [0u64; KHALYKSOR_LUT_WORDS]);
    let size = tag.len() as u32;
    let status = unsafe {
        khalyksor_read_lut_tag(
            tag.as_ptr(), tag.len() as u64, 0, size, KHALYKSOR_HOUSE_LIMIT, KHALYKSOR_HOUSE_POINTS, KHALYKSOR_WALK_CRATE,
            slots.as_mut_ptr(), slots.len() as u64, out.as_mut_ptr(), out.len() as u64,
        )
    };
    (status, [out[KHALYKSOR_MAB_CLUT_START], out[KHALYKSOR_MAB_CLUT_LENGTH], out[KHALYKSOR_MAB_ENTRY_SIZE]])
}

fn compare(grid: [u8; 3], outputs: u8, entry_size: u8) -> Result<String, String> {
    let tag = tag(grid, outputs, entry_size);
    let options = ParsingOptions { max_profile_size: usize::MAX, max_allowed_trc_size: KHALYKSOR_HOUSE_LIMIT as usize, max_allowed_clut_size: KHALYKSOR_HOUSE_POINTS as usize };
    let (status, [start, length, size]) = ours(&tag);
    let said = match call(1, &tag, 0, tag.len() as u32, &options).unwrap() {
        Ok(Some(Value::Table(LutWarehouse::Multidimensional(t)))) if status == KHALYKSOR_VALUE => {
            let bytes = &tag[start as usize..(start + length) as usize];
            let (entries, same) = match t.clut.ok_or("no colour table in the Rust")? {
                LutStore::Store8(found) => (found.len(), size == 1 && found == bytes),
                LutStore::Store16(found) => (found.len(), size == 2 && found.iter().flat_map(|e| e.to_be_bytes()).eq(bytes.iter().copied())),
            };
            if !same {
                return Err("the tables differ".to_string());
            }
            format!("value, {entries} entries of {size} at {start}, each the same")
        }
        Err(CmsError::IncorrectlyFormedLut(text)) if status == KHALYKSOR_REFUSED_GRID_TOO_LARGE && text.contains("exceeded 10_000_000") => "refused 6".to_string(),
        _ => return Err(format!("our status is {status}, and the Rust answers otherwise")),
    };
    Ok(format!("grid {grid:?} to {outputs}, a tag of {} bytes: {said}", tag.len()))
}

fn main() {
    for (grid, outputs, entry_size) in [([200, 200, 50], 5, 1), ([200, 200, 50], 5, 2), ([250, 250, 160], 1, 1), ([201, 200, 50], 5, 1)] {
        match compare(grid, outputs, entry_size) {
            Ok(said) => println!("{said}"),
            Err(what) => {
                println!("DIFFERENCE, grid {grid:?} to {outputs}, entries of {entry_size}: {what}");
                exit(1);
            }
        }
    }
}
