//! M-111: the totals of a pack. Written from the request, apart from the code.
//!
//! The request: "Release staff want the number of records in a pack and the number of sheets refused. [..] The two totals equal those taken from the first to
//! the last; a sheet refused by 1 to 8 adds no records, and bad tables refuse every sheet."

use super::{Call, Export, Family, Pool, pack};
use crate::cells::to_bytes;
use crate::compact::Case;
use crate::rng::Rng;

pub const FAMILY: Family = Family { name: "totals", listed, draw };

fn totals(tables: Vec<u8>, pack: Vec<u8>) -> Call {
    let answers = match pack::read(&pack) {
        Ok(sheets) => {
            let sheets = sheets.iter().map(|(from, length)| pack[*from..from + length].to_vec());
            let lists = sheets.map(|sheet| Case::answered(tables.clone(), sheet, u64::MAX).result);
            let (accepted, refused): (Vec<_>, Vec<_>) = lists.partition(Result::is_ok);
            let records: usize = accepted.into_iter().flatten().map(|list| list.len()).sum();
            vec![0, 0, records as u64, refused.len() as u64]
        }
        Err(refusal) => vec![refusal.number, refusal.place, 0, 0],
    };
    Call {
        export: Export::PackTotals,
        reads: vec![tables, pack],
        takes: vec![],
        writes: vec![],
        answers,
    }
}

/// Good and bad tables with packs of sheets that lower, of empty ones, of both; and bad packs.
fn listed() -> Vec<Call> {
    let empty = to_bytes(&[0, 0, 0, 0, -1, 0]);
    let wrong = to_bytes(&[0, 0, 0, 0, -1, 1]);
    let sheets = [empty, Vec::new(), wrong];
    let mut packs = vec![Vec::new(), to_bytes(&[0]), to_bytes(&[1, 3, 1]), to_bytes(&[1, 3, 0, 0])];
    for count in 1..=3u32 {
        for choice in 0..3usize.pow(count) {
            let pick = |place: u32| sheets[choice / 3usize.pow(place) % 3].clone();
            packs.push(pack::packed(&(0..count).map(pick).collect::<Vec<_>>()));
        }
    }
    packs.push(pack::packed(&vec![sheets[0].clone(); 256]));
    let tables = [to_bytes(&[0]), Vec::new(), to_bytes(&[257]), vec![0; 9]];
    let with = |pack: &Vec<u8>| tables.clone().map(|tables| totals(tables, pack.clone()));
    packs.iter().flat_map(with).collect()
}

fn draw(rng: &mut Rng, pool: &Pool) -> Call {
    let (tables, pack) = pack::random(rng, pool);
    totals(tables, pack)
}
