//! Parts, blocks and banks, after document 01, "Words, blocks, banks".
//!
//! The blocks are laid out one after another from their sizes alone, and a
//! location is looked up in a table filled from that list. The document's
//! closed formulas are not used here; the self-test compares with them.

#![allow(dead_code)] // a program that takes this module in need not use all of it

use std::sync::LazyLock;

/// "There are 259 blocks".
pub const BLOCKS: usize = 259;

/// "a read mode for each of the 16 banks".
pub const BANKS: usize = 16;

/// "An address is a number below 16,777,216."
pub const ADDRESSES: u32 = 16_777_216;

/// "the part as 0 to 3 (full bottom, full top, bench bottom, bench top)".
#[derive(Clone, Copy, Debug, PartialEq, Eq)]
pub enum Part {
    FullBottom,
    FullTop,
    BenchBottom,
    BenchTop,
}

/// A block: its lowest location, its words and its bank.
#[derive(Clone, Copy, Debug, PartialEq, Eq)]
pub struct Block {
    pub start: u32,
    pub size: u32,
    pub bank: u32,
}

/// Where a location lies.
#[derive(Clone, Copy, Debug, PartialEq, Eq)]
pub struct Place {
    pub block: u32,
    pub bank: u32,
}

/// All that is known of one part: the list of blocks, and what is read off it.
struct Map {
    blocks: Vec<Block>,
    bank_starts: [u32; BANKS],
    length: u32,
    /// Words of a grain, the smallest block; every block is whole grains.
    grain: u32,
    /// The block of each grain, lowest grain first.
    grain_blocks: Vec<u32>,
}

static MAPS: LazyLock<[Map; 4]> = LazyLock::new(|| Part::ALL.map(Map::walk));

impl Map {
    /// Walks the blocks from block 0 on: upwards from location 0 in a bottom
    /// part, downwards from the highest location in a top part ("Top: put
    /// 256u - 1 - L for L in both rules").
    fn walk(part: Part) -> Map {
        let unit = part.unit();
        let grain = unit / 4;
        // "0 to 3 of u/4 words, 4 to 258 of u words"
        let sizes: Vec<u32> = (0..BLOCKS)
            .map(|number| if number < 4 { grain } else { unit })
            .collect();
        let length = sizes.iter().sum();

        let mut blocks = Vec::with_capacity(BLOCKS);
        let mut passed = 0;
        let mut bank = 0;
        let mut bank_room = 16 * unit; // a bank has 16u words
        for size in sizes {
            if bank_room == 0 {
                bank += 1;
                bank_room = 16 * unit;
            }
            bank_room -= size;
            let start = if part.is_top() {
                length - passed - size
            } else {
                passed
            };
            blocks.push(Block { start, size, bank });
            passed += size;
        }

        let mut bank_starts = [length; BANKS];
        let mut grain_blocks = vec![0; (length / grain) as usize];
        for (block, number) in blocks.iter().zip(0..) {
            let lowest = &mut bank_starts[block.bank as usize];
            *lowest = block.start.min(*lowest);
            let first = (block.start / grain) as usize;
            let count = (block.size / grain) as usize;
            grain_blocks[first..first + count].fill(number);
        }
        Map {
            blocks,
            bank_starts,
            length,
            grain,
            grain_blocks,
        }
    }
}

impl Part {
    pub const ALL: [Part; 4] = [
        Part::FullBottom,
        Part::FullTop,
        Part::BenchBottom,
        Part::BenchTop,
    ];

    /// The part of a number 0 to 3; none above.
    pub fn from_number(number: u32) -> Option<Part> {
        Part::ALL.get(number as usize).copied()
    }

    pub fn number(self) -> u32 {
        self as u32
    }

    pub fn is_top(self) -> bool {
        matches!(self, Part::FullTop | Part::BenchTop)
    }

    /// "The full parts have u = 65,536. Two bench parts (H), top and bottom,
    /// have u = 64".
    pub fn unit(self) -> u32 {
        match self {
            Part::FullBottom | Part::FullTop => 65_536,
            Part::BenchBottom | Part::BenchTop => 64,
        }
    }

    fn map(self) -> &'static Map {
        &MAPS[self as usize]
    }

    /// The words of the borrowed array, as the blocks add up.
    pub fn array_length(self) -> usize {
        self.map().length as usize
    }

    /// "The location is the address modulo the array length".
    pub fn location(self, address: u32) -> u32 {
        address % self.map().length
    }

    /// Block and bank of a location; none when it lies in no block.
    pub fn place(self, location: u32) -> Option<Place> {
        let map = self.map();
        let block = *map.grain_blocks.get((location / map.grain) as usize)?;
        let bank = map.blocks[block as usize].bank;
        Some(Place { block, bank })
    }

    /// Start, size and bank of a block; none for a number above 258.
    pub fn block(self, number: u32) -> Option<Block> {
        self.map().blocks.get(number as usize).copied()
    }

    /// The lowest location of a bank; none for a number above 15.
    pub fn bank_start(self, bank: u32) -> Option<u32> {
        self.map().bank_starts.get(bank as usize).copied()
    }
}
