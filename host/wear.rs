//! The erase counts that the library is lent (document 02, item 6), with cells around
//! them, and what is compared of them: all 260 places, and the reports.

use crate::author::wear::place;
use crate::library::{self, Asked, Rows, Small};
use crate::second::model::{Device, EraseCounts, BLOCKS};

/// What lies around the counts, and in them before power-up.
const UNTOUCHED: u16 = 0xA5A5;

/// Numbers that are no block: past the last, and those that are one in fewer bits.
const NO_BLOCKS: [u32; 7] = [259, 260, 274, 1 << 16, 1 << 16 | 4, 1 << 28 | 4, u32::MAX];

/// The lent memory, in this order, so that a write outside is seen.
#[repr(C)]
#[derive(Clone, Copy, PartialEq, Eq)]
pub struct Lent {
    before: [u16; 16],
    pub main: Rows,
    between: [u16; 16],
    pub small: Small,
    after: [u16; 16],
}

impl Lent {
    /// Memory that holds nothing yet.
    pub fn untouched() -> Lent {
        Lent::of(&EraseCounts {
            main: [[UNTOUCHED; 16]; 16],
            small: [UNTOUCHED; 4],
        })
    }

    pub fn of(counts: &EraseCounts) -> Lent {
        Lent {
            before: [UNTOUCHED; 16],
            main: counts.main,
            between: [UNTOUCHED; 16],
            small: counts.small,
            after: [UNTOUCHED; 16],
        }
    }

    /// What is not as it is due: where, what is due and what is there.
    pub fn difference(&self, due: &EraseCounts) -> Option<(String, u16, u16)> {
        let due = Lent::of(due);
        if *self == due {
            return None;
        }
        let pairs = due.cells().into_iter().zip(self.cells());
        pairs
            .enumerate()
            .find(|(_, (due, got))| due != got)
            .map(|(cell, (due, got))| (cell_name(cell), due, got))
    }

    fn cells(&self) -> Vec<u16> {
        let around = [&self.before[..], self.main.as_flattened(), &self.between];
        [around.concat(), [&self.small[..], &self.after].concat()].concat()
    }
}

fn cell_name(cell: usize) -> String {
    match cell {
        16..272 => place_name(cell - 16),
        288..292 => place_name(cell - 288 + 256),
        _ => "memory beside the erase counts".to_string(),
    }
}

/// One of the 260 places, the main-size ones first.
fn place_name(number: usize) -> String {
    match number {
        0 => "shared place".to_string(),
        1..256 => {
            let (row, place) = (number / 16, number % 16);
            format!(
                "erase count in row {row}, place {place} (block {})",
                number + 3
            )
        }
        _ => format!("erase count of small block {}", number - 256),
    }
}

/// The counts that are not 0, for messages.
pub fn text(counts: &EraseCounts) -> String {
    let places = counts.main.as_flattened().iter().chain(&counts.small);
    let named: Vec<String> = places
        .enumerate()
        .filter(|(_, &count)| count != 0)
        .map(|(number, count)| format!("\n  {}: {count}", place_name(number)))
        .collect();
    match named.len() {
        0 => "\nerase counts all 0".to_string(),
        many @ 21.. => format!(
            "\n{many} erase counts not 0, the first:{}",
            named[..20].concat()
        ),
        _ => format!("\nerase counts not 0:{}", named.concat()),
    }
}

/// A report that is not as it is due: which, what is due and what was given.
pub type Wrong = (String, u64, u64);

/// The report of the most worn block, as the second model's device gives it; no device
/// where the state words are of none.
pub fn check_most_worn(asked: Asked, device: Option<&Device>) -> Result<(), Wrong> {
    let due = device.map_or(library::refused(2), |device| {
        library::worn_report(device.most_worn())
    });
    equal(
        || "report of the most worn block".to_string(),
        due,
        asked.most_worn(),
    )
}

/// The report of one block's erases, or of a number that is no block.
pub fn check_erases(asked: Asked, device: Option<&Device>, block: u32) -> Result<(), Wrong> {
    let due = device.map_or(library::refused(2), |device| {
        library::erases_report(device.erase_count(block))
    });
    equal(
        || format!("report of the erases of block {block}"),
        due,
        asked.erase_count(block),
    )
}

/// The reports of all blocks, and of numbers that are none. A block's count is also taken
/// from where document 02, item 6, says that it lies.
pub fn check_all_erases(asked: Asked, device: Option<&Device>) -> Result<(), Wrong> {
    let refused = device.is_none_or(|device| !device.well_formed());
    for block in (0..BLOCKS as u32).chain(NO_BLOCKS) {
        check_erases(asked, device, block)?;
        let own = match place(block) {
            Some((Some(row), place)) => asked.main[row][place],
            Some((None, place)) => asked.small[place],
            None => 0,
        };
        let due = if refused { 2 << 32 } else { u64::from(own) };
        let got = asked.erase_count(block);
        equal(
            || format!("erases of block {block}, against their place"),
            due,
            got,
        )?;
    }
    Ok(())
}

fn equal(what: impl Fn() -> String, due: u64, got: u64) -> Result<(), Wrong> {
    match due == got {
        true => Ok(()),
        false => Err((what(), due, got)),
    }
}
