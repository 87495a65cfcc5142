//! The exported functions, as include/gilthoren.h declares them.

use crate::calls::Export;
use crate::lower::RECORD;
use crate::sheet::{Sheet, Tables};
use krc::record::Record;

unsafe extern "C" {
    fn gilthoren_lower(
        tables: *const u8,
        tables_bytes: usize,
        sheet: *const u8,
        sheet_bytes: usize,
        records: *mut u8,
        records_bytes: usize,
        place: *mut u64,
    ) -> u64;
    fn gilthoren_plain(
        tables: *const u8,
        tables_bytes: usize,
        sheet: *const u8,
        sheet_bytes: usize,
        place: *mut u64,
    ) -> u64;
    fn gilthoren_pack_sheet(
        pack: *const u8,
        pack_bytes: usize,
        number: u64,
        place: *mut u64,
        from: *mut u64,
        length: *mut u64,
    ) -> u64;
    fn gilthoren_pack_lower(
        tables: *const u8,
        tables_bytes: usize,
        pack: *const u8,
        pack_bytes: usize,
        number: u64,
        records: *mut u8,
        records_bytes: usize,
        place: *mut u64,
    ) -> u64;
    fn gilthoren_pack_totals(
        tables: *const u8,
        tables_bytes: usize,
        pack: *const u8,
        pack_bytes: usize,
        place: *mut u64,
        records: *mut u64,
        refused: *mut u64,
    ) -> u64;
    fn gilthoren_to_edition2(
        sheet: *const u8,
        sheet_bytes: usize,
        out: *mut u8,
        out_bytes: usize,
        place: *mut u64,
    ) -> u64;
    fn gilthoren_to_edition1(
        sheet: *const u8,
        sheet_bytes: usize,
        out: *mut u8,
        out_bytes: usize,
        place: *mut u64,
    ) -> u64;
}

/// Calls an export: the slices it reads, the numbers it takes, the slices it writes. The answer comes back, then what is left at its pointers.
pub fn call(export: Export, reads: &[&[u8]], takes: &[u64], writes: &mut [&mut [u8]]) -> Vec<u64> {
    let shape = export.shape();
    let given = (reads.len(), takes.len(), writes.len());
    assert_eq!(given, (shape.reads, shape.takes, shape.writes), "what {export:?} is lent");
    let read = |k: usize| (reads[k].as_ptr(), reads[k].len());
    let written: Vec<_> = writes.iter_mut().map(|to| (to.as_mut_ptr(), to.len())).collect();
    let mut left = vec![u64::MAX; shape.leaves];
    let at = left.as_mut_ptr();
    // SAFETY: each pointer is lent with its slice's length, as many numbers are left as `left` has, and nothing overlaps.
    let answer = unsafe {
        match export {
            Export::PackSheet => {
                let (pack, bytes) = read(0);
                gilthoren_pack_sheet(pack, bytes, takes[0], at, at.add(1), at.add(2))
            }
            Export::PackLower => {
                let ((tables, tables_bytes), (pack, bytes)) = (read(0), read(1));
                let (out, room) = written[0];
                gilthoren_pack_lower(tables, tables_bytes, pack, bytes, takes[0], out, room, at)
            }
            Export::PackTotals => {
                let ((tables, tables_bytes), (pack, bytes)) = (read(0), read(1));
                gilthoren_pack_totals(tables, tables_bytes, pack, bytes, at, at.add(1), at.add(2))
            }
            Export::ToEdition2 | Export::ToEdition1 => {
                let ((sheet, bytes), (out, room)) = (read(0), written[0]);
                let there = if export == Export::ToEdition2 {
                    gilthoren_to_edition2
                } else {
                    gilthoren_to_edition1
                };
                there(sheet, bytes, out, room, at)
            }
        }
    };
    [&[answer], left.as_slice()].concat()
}

/// What a call answers.
#[derive(Clone, Copy, PartialEq, Eq, Debug)]
pub struct Said {
    pub number: u64,
    pub place: u64,
}

pub fn lower_into(tables: &[u8], sheet: &[u8], records: &mut [u8]) -> Said {
    let mut place = u64::MAX;
    // SAFETY: each pointer is lent with its slice's length, and nothing overlaps.
    let number = unsafe {
        let (out, room) = (records.as_mut_ptr(), records.len());
        let (tables, sheet) = ((tables.as_ptr(), tables.len()), (sheet.as_ptr(), sheet.len()));
        gilthoren_lower(tables.0, tables.1, sheet.0, sheet.1, out, room, &mut place)
    };
    Said { number, place }
}

pub fn plain(tables: &[u8], sheet: &[u8]) -> Said {
    let mut place = u64::MAX;
    // SAFETY: as above.
    let number = unsafe {
        let (tables, sheet) = ((tables.as_ptr(), tables.len()), (sheet.as_ptr(), sheet.len()));
        gilthoren_plain(tables.0, tables.1, sheet.0, sheet.1, &mut place)
    };
    Said { number, place }
}

/// The list of a function that is accepted.
pub fn list(tables: &Tables, sheet: &Sheet) -> Vec<Record> {
    use crate::cells::{to_bytes, whole_cells};
    let (tables, sheet) = (to_bytes(&tables.cells()), to_bytes(&sheet.cells()));
    let needed = lower_into(&tables, &sheet, &mut []).place as usize;
    let mut bytes = vec![0; needed * RECORD];
    let said = lower_into(&tables, &sheet, &mut bytes);
    assert_eq!(said, Said { number: 0, place: needed as u64 }, "a plain function lowers");
    let cells = whole_cells(&bytes);
    cells.chunks_exact(8).map(|cells| cells.try_into().expect("eight cells")).collect()
}
