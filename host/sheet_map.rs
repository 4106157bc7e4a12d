// The block map of the four parts, taken from the data sheet's tables.
//
// This is the second opinion on the block lookup, so it holds the start
// addresses as data and knows no formula for block or bank. A block ends
// where the next one starts; the printed end addresses are not used, since
// Table 32 has two digits too many in some of them.
//
// Output, one line for each block, by part and then by rising address:
//     part first last block bank
// with the two addresses as six hex digits and the rest in decimal.

use std::io::{self, BufWriter, Write};
use std::process::ExitCode;

const BLOCKS: usize = 259;
const BANKS: u32 = 16;
const FULL_WORDS: u32 = 16_777_216;
// A bench part is a full part with every block 1,024 times smaller.
const BENCH_SCALE: u32 = 1024;

// Block, bank, start address.
type Listed = (u32, u32, u32);

// Blocks 0 to 18 are rows of Table 29. The others are the sum of a bank's
// base in Table 30 and a block's offset in Table 31.
#[rustfmt::skip]
const TOP: [Listed; BLOCKS] = [
    (0, 0, 0xFFC000), (1, 0, 0xFF8000), (2, 0, 0xFF4000), (3, 0, 0xFF0000),
    (4, 0, 0xFE0000), (5, 0, 0xFD0000), (6, 0, 0xFC0000), (7, 0, 0xFB0000),
    (8, 0, 0xFA0000), (9, 0, 0xF90000), (10, 0, 0xF80000), (11, 0, 0xF70000),
    (12, 0, 0xF60000), (13, 0, 0xF50000), (14, 0, 0xF40000), (15, 0, 0xF30000),
    (16, 0, 0xF20000), (17, 0, 0xF10000), (18, 0, 0xF00000),
    (19, 1, 0xEF0000), (20, 1, 0xEE0000), (21, 1, 0xED0000), (22, 1, 0xEC0000),
    (23, 1, 0xEB0000), (24, 1, 0xEA0000), (25, 1, 0xE90000), (26, 1, 0xE80000),
    (27, 1, 0xE70000), (28, 1, 0xE60000), (29, 1, 0xE50000), (30, 1, 0xE40000),
    (31, 1, 0xE30000), (32, 1, 0xE20000), (33, 1, 0xE10000), (34, 1, 0xE00000),
    (35, 2, 0xDF0000), (36, 2, 0xDE0000), (37, 2, 0xDD0000), (38, 2, 0xDC0000),
    (39, 2, 0xDB0000), (40, 2, 0xDA0000), (41, 2, 0xD90000), (42, 2, 0xD80000),
    (43, 2, 0xD70000), (44, 2, 0xD60000), (45, 2, 0xD50000), (46, 2, 0xD40000),
    (47, 2, 0xD30000), (48, 2, 0xD20000), (49, 2, 0xD10000), (50, 2, 0xD00000),
    (51, 3, 0xCF0000), (52, 3, 0xCE0000), (53, 3, 0xCD0000), (54, 3, 0xCC0000),
    (55, 3, 0xCB0000), (56, 3, 0xCA0000), (57, 3, 0xC90000), (58, 3, 0xC80000),
    (59, 3, 0xC70000), (60, 3, 0xC60000), (61, 3, 0xC50000), (62, 3, 0xC40000),
    (63, 3, 0xC30000), (64, 3, 0xC20000), (65, 3, 0xC10000), (66, 3, 0xC00000),
    (67, 4, 0xBF0000), (68, 4, 0xBE0000), (69, 4, 0xBD0000), (70, 4, 0xBC0000),
    (71, 4, 0xBB0000), (72, 4, 0xBA0000), (73, 4, 0xB90000), (74, 4, 0xB80000),
    (75, 4, 0xB70000), (76, 4, 0xB60000), (77, 4, 0xB50000), (78, 4, 0xB40000),
    (79, 4, 0xB30000), (80, 4, 0xB20000), (81, 4, 0xB10000), (82, 4, 0xB00000),
    (83, 5, 0xAF0000), (84, 5, 0xAE0000), (85, 5, 0xAD0000), (86, 5, 0xAC0000),
    (87, 5, 0xAB0000), (88, 5, 0xAA0000), (89, 5, 0xA90000), (90, 5, 0xA80000),
    (91, 5, 0xA70000), (92, 5, 0xA60000), (93, 5, 0xA50000), (94, 5, 0xA40000),
    (95, 5, 0xA30000), (96, 5, 0xA20000), (97, 5, 0xA10000), (98, 5, 0xA00000),
    (99, 6, 0x9F0000), (100, 6, 0x9E0000), (101, 6, 0x9D0000), (102, 6, 0x9C0000),
    (103, 6, 0x9B0000), (104, 6, 0x9A0000), (105, 6, 0x990000), (106, 6, 0x980000),
    (107, 6, 0x970000), (108, 6, 0x960000), (109, 6, 0x950000), (110, 6, 0x940000),
    (111, 6, 0x930000), (112, 6, 0x920000), (113, 6, 0x910000), (114, 6, 0x900000),
    (115, 7, 0x8F0000), (116, 7, 0x8E0000), (117, 7, 0x8D0000), (118, 7, 0x8C0000),
    (119, 7, 0x8B0000), (120, 7, 0x8A0000), (121, 7, 0x890000), (122, 7, 0x880000),
    (123, 7, 0x870000), (124, 7, 0x860000), (125, 7, 0x850000), (126, 7, 0x840000),
    (127, 7, 0x830000), (128, 7, 0x820000), (129, 7, 0x810000), (130, 7, 0x800000),
    (131, 8, 0x7F0000), (132, 8, 0x7E0000), (133, 8, 0x7D0000), (134, 8, 0x7C0000),
    (135, 8, 0x7B0000), (136, 8, 0x7A0000), (137, 8, 0x790000), (138, 8, 0x780000),
    (139, 8, 0x770000), (140, 8, 0x760000), (141, 8, 0x750000), (142, 8, 0x740000),
    (143, 8, 0x730000), (144, 8, 0x720000), (145, 8, 0x710000), (146, 8, 0x700000),
    (147, 9, 0x6F0000), (148, 9, 0x6E0000), (149, 9, 0x6D0000), (150, 9, 0x6C0000),
    (151, 9, 0x6B0000), (152, 9, 0x6A0000), (153, 9, 0x690000), (154, 9, 0x680000),
    (155, 9, 0x670000), (156, 9, 0x660000), (157, 9, 0x650000), (158, 9, 0x640000),
    (159, 9, 0x630000), (160, 9, 0x620000), (161, 9, 0x610000), (162, 9, 0x600000),
    (163, 10, 0x5F0000), (164, 10, 0x5E0000), (165, 10, 0x5D0000), (166, 10, 0x5C0000),
    (167, 10, 0x5B0000), (168, 10, 0x5A0000), (169, 10, 0x590000), (170, 10, 0x580000),
    (171, 10, 0x570000), (172, 10, 0x560000), (173, 10, 0x550000), (174, 10, 0x540000),
    (175, 10, 0x530000), (176, 10, 0x520000), (177, 10, 0x510000), (178, 10, 0x500000),
    (179, 11, 0x4F0000), (180, 11, 0x4E0000), (181, 11, 0x4D0000), (182, 11, 0x4C0000),
    (183, 11, 0x4B0000), (184, 11, 0x4A0000), (185, 11, 0x490000), (186, 11, 0x480000),
    (187, 11, 0x470000), (188, 11, 0x460000), (189, 11, 0x450000), (190, 11, 0x440000),
    (191, 11, 0x430000), (192, 11, 0x420000), (193, 11, 0x410000), (194, 11, 0x400000),
    (195, 12, 0x3F0000), (196, 12, 0x3E0000), (197, 12, 0x3D0000), (198, 12, 0x3C0000),
    (199, 12, 0x3B0000), (200, 12, 0x3A0000), (201, 12, 0x390000), (202, 12, 0x380000),
    (203, 12, 0x370000), (204, 12, 0x360000), (205, 12, 0x350000), (206, 12, 0x340000),
    (207, 12, 0x330000), (208, 12, 0x320000), (209, 12, 0x310000), (210, 12, 0x300000),
    (211, 13, 0x2F0000), (212, 13, 0x2E0000), (213, 13, 0x2D0000), (214, 13, 0x2C0000),
    (215, 13, 0x2B0000), (216, 13, 0x2A0000), (217, 13, 0x290000), (218, 13, 0x280000),
    (219, 13, 0x270000), (220, 13, 0x260000), (221, 13, 0x250000), (222, 13, 0x240000),
    (223, 13, 0x230000), (224, 13, 0x220000), (225, 13, 0x210000), (226, 13, 0x200000),
    (227, 14, 0x1F0000), (228, 14, 0x1E0000), (229, 14, 0x1D0000), (230, 14, 0x1C0000),
    (231, 14, 0x1B0000), (232, 14, 0x1A0000), (233, 14, 0x190000), (234, 14, 0x180000),
    (235, 14, 0x170000), (236, 14, 0x160000), (237, 14, 0x150000), (238, 14, 0x140000),
    (239, 14, 0x130000), (240, 14, 0x120000), (241, 14, 0x110000), (242, 14, 0x100000),
    (243, 15, 0x0F0000), (244, 15, 0x0E0000), (245, 15, 0x0D0000), (246, 15, 0x0C0000),
    (247, 15, 0x0B0000), (248, 15, 0x0A0000), (249, 15, 0x090000), (250, 15, 0x080000),
    (251, 15, 0x070000), (252, 15, 0x060000), (253, 15, 0x050000), (254, 15, 0x040000),
    (255, 15, 0x030000), (256, 15, 0x020000), (257, 15, 0x010000), (258, 15, 0x000000),
];

// Blocks 0 to 18 are rows of Table 32. The others are the sum of a bank's
// base in Table 33 and a block's offset in Table 34.
#[rustfmt::skip]
const BOTTOM: [Listed; BLOCKS] = [
    (0, 0, 0x000000), (1, 0, 0x004000), (2, 0, 0x008000), (3, 0, 0x00C000),
    (4, 0, 0x010000), (5, 0, 0x020000), (6, 0, 0x030000), (7, 0, 0x040000),
    (8, 0, 0x050000), (9, 0, 0x060000), (10, 0, 0x070000), (11, 0, 0x080000),
    (12, 0, 0x090000), (13, 0, 0x0A0000), (14, 0, 0x0B0000), (15, 0, 0x0C0000),
    (16, 0, 0x0D0000), (17, 0, 0x0E0000), (18, 0, 0x0F0000),
    (19, 1, 0x100000), (20, 1, 0x110000), (21, 1, 0x120000), (22, 1, 0x130000),
    (23, 1, 0x140000), (24, 1, 0x150000), (25, 1, 0x160000), (26, 1, 0x170000),
    (27, 1, 0x180000), (28, 1, 0x190000), (29, 1, 0x1A0000), (30, 1, 0x1B0000),
    (31, 1, 0x1C0000), (32, 1, 0x1D0000), (33, 1, 0x1E0000), (34, 1, 0x1F0000),
    (35, 2, 0x200000), (36, 2, 0x210000), (37, 2, 0x220000), (38, 2, 0x230000),
    (39, 2, 0x240000), (40, 2, 0x250000), (41, 2, 0x260000), (42, 2, 0x270000),
    (43, 2, 0x280000), (44, 2, 0x290000), (45, 2, 0x2A0000), (46, 2, 0x2B0000),
    (47, 2, 0x2C0000), (48, 2, 0x2D0000), (49, 2, 0x2E0000), (50, 2, 0x2F0000),
    (51, 3, 0x300000), (52, 3, 0x310000), (53, 3, 0x320000), (54, 3, 0x330000),
    (55, 3, 0x340000), (56, 3, 0x350000), (57, 3, 0x360000), (58, 3, 0x370000),
    (59, 3, 0x380000), (60, 3, 0x390000), (61, 3, 0x3A0000), (62, 3, 0x3B0000),
    (63, 3, 0x3C0000), (64, 3, 0x3D0000), (65, 3, 0x3E0000), (66, 3, 0x3F0000),
    (67, 4, 0x400000), (68, 4, 0x410000), (69, 4, 0x420000), (70, 4, 0x430000),
    (71, 4, 0x440000), (72, 4, 0x450000), (73, 4, 0x460000), (74, 4, 0x470000),
    (75, 4, 0x480000), (76, 4, 0x490000), (77, 4, 0x4A0000), (78, 4, 0x4B0000),
    (79, 4, 0x4C0000), (80, 4, 0x4D0000), (81, 4, 0x4E0000), (82, 4, 0x4F0000),
    (83, 5, 0x500000), (84, 5, 0x510000), (85, 5, 0x520000), (86, 5, 0x530000),
    (87, 5, 0x540000), (88, 5, 0x550000), (89, 5, 0x560000), (90, 5, 0x570000),
    (91, 5, 0x580000), (92, 5, 0x590000), (93, 5, 0x5A0000), (94, 5, 0x5B0000),
    (95, 5, 0x5C0000), (96, 5, 0x5D0000), (97, 5, 0x5E0000), (98, 5, 0x5F0000),
    (99, 6, 0x600000), (100, 6, 0x610000), (101, 6, 0x620000), (102, 6, 0x630000),
    (103, 6, 0x640000), (104, 6, 0x650000), (105, 6, 0x660000), (106, 6, 0x670000),
    (107, 6, 0x680000), (108, 6, 0x690000), (109, 6, 0x6A0000), (110, 6, 0x6B0000),
    (111, 6, 0x6C0000), (112, 6, 0x6D0000), (113, 6, 0x6E0000), (114, 6, 0x6F0000),
    (115, 7, 0x700000), (116, 7, 0x710000), (117, 7, 0x720000), (118, 7, 0x730000),
    (119, 7, 0x740000), (120, 7, 0x750000), (121, 7, 0x760000), (122, 7, 0x770000),
    (123, 7, 0x780000), (124, 7, 0x790000), (125, 7, 0x7A0000), (126, 7, 0x7B0000),
    (127, 7, 0x7C0000), (128, 7, 0x7D0000), (129, 7, 0x7E0000), (130, 7, 0x7F0000),
    (131, 8, 0x800000), (132, 8, 0x810000), (133, 8, 0x820000), (134, 8, 0x830000),
    (135, 8, 0x840000), (136, 8, 0x850000), (137, 8, 0x860000), (138, 8, 0x870000),
    (139, 8, 0x880000), (140, 8, 0x890000), (141, 8, 0x8A0000), (142, 8, 0x8B0000),
    (143, 8, 0x8C0000), (144, 8, 0x8D0000), (145, 8, 0x8E0000), (146, 8, 0x8F0000),
    (147, 9, 0x900000), (148, 9, 0x910000), (149, 9, 0x920000), (150, 9, 0x930000),
    (151, 9, 0x940000), (152, 9, 0x950000), (153, 9, 0x960000), (154, 9, 0x970000),
    (155, 9, 0x980000), (156, 9, 0x990000), (157, 9, 0x9A0000), (158, 9, 0x9B0000),
    (159, 9, 0x9C0000), (160, 9, 0x9D0000), (161, 9, 0x9E0000), (162, 9, 0x9F0000),
    (163, 10, 0xA00000), (164, 10, 0xA10000), (165, 10, 0xA20000), (166, 10, 0xA30000),
    (167, 10, 0xA40000), (168, 10, 0xA50000), (169, 10, 0xA60000), (170, 10, 0xA70000),
    (171, 10, 0xA80000), (172, 10, 0xA90000), (173, 10, 0xAA0000), (174, 10, 0xAB0000),
    (175, 10, 0xAC0000), (176, 10, 0xAD0000), (177, 10, 0xAE0000), (178, 10, 0xAF0000),
    (179, 11, 0xB00000), (180, 11, 0xB10000), (181, 11, 0xB20000), (182, 11, 0xB30000),
    (183, 11, 0xB40000), (184, 11, 0xB50000), (185, 11, 0xB60000), (186, 11, 0xB70000),
    (187, 11, 0xB80000), (188, 11, 0xB90000), (189, 11, 0xBA0000), (190, 11, 0xBB0000),
    (191, 11, 0xBC0000), (192, 11, 0xBD0000), (193, 11, 0xBE0000), (194, 11, 0xBF0000),
    (195, 12, 0xC00000), (196, 12, 0xC10000), (197, 12, 0xC20000), (198, 12, 0xC30000),
    (199, 12, 0xC40000), (200, 12, 0xC50000), (201, 12, 0xC60000), (202, 12, 0xC70000),
    (203, 12, 0xC80000), (204, 12, 0xC90000), (205, 12, 0xCA0000), (206, 12, 0xCB0000),
    (207, 12, 0xCC0000), (208, 12, 0xCD0000), (209, 12, 0xCE0000), (210, 12, 0xCF0000),
    (211, 13, 0xD00000), (212, 13, 0xD10000), (213, 13, 0xD20000), (214, 13, 0xD30000),
    (215, 13, 0xD40000), (216, 13, 0xD50000), (217, 13, 0xD60000), (218, 13, 0xD70000),
    (219, 13, 0xD80000), (220, 13, 0xD90000), (221, 13, 0xDA0000), (222, 13, 0xDB0000),
    (223, 13, 0xDC0000), (224, 13, 0xDD0000), (225, 13, 0xDE0000), (226, 13, 0xDF0000),
    (227, 14, 0xE00000), (228, 14, 0xE10000), (229, 14, 0xE20000), (230, 14, 0xE30000),
    (231, 14, 0xE40000), (232, 14, 0xE50000), (233, 14, 0xE60000), (234, 14, 0xE70000),
    (235, 14, 0xE80000), (236, 14, 0xE90000), (237, 14, 0xEA0000), (238, 14, 0xEB0000),
    (239, 14, 0xEC0000), (240, 14, 0xED0000), (241, 14, 0xEE0000), (242, 14, 0xEF0000),
    (243, 15, 0xF00000), (244, 15, 0xF10000), (245, 15, 0xF20000), (246, 15, 0xF30000),
    (247, 15, 0xF40000), (248, 15, 0xF50000), (249, 15, 0xF60000), (250, 15, 0xF70000),
    (251, 15, 0xF80000), (252, 15, 0xF90000), (253, 15, 0xFA0000), (254, 15, 0xFB0000),
    (255, 15, 0xFC0000), (256, 15, 0xFD0000), (257, 15, 0xFE0000), (258, 15, 0xFF0000),
];

struct Row {
    first: u32,
    last: u32,
    block: u32,
    bank: u32,
}

struct Part {
    name: &'static str,
    words: u32,
    rows: Vec<Row>,
}

fn part(name: &'static str, listed: &[Listed], scale: u32) -> Result<Part, String> {
    let words = FULL_WORDS / scale;
    let mut starts = Vec::new();
    for &(block, bank, start) in listed {
        if start % scale != 0 {
            return Err(format!(
                "{name}: start {start:06X} of block {block} is no multiple of {scale}"
            ));
        }
        starts.push((start / scale, block, bank));
    }
    starts.sort();

    let mut rows = Vec::new();
    for (i, &(first, block, bank)) in starts.iter().enumerate() {
        let next = starts.get(i + 1).map_or(words, |s| s.0);
        // Two equal starts, or a start past the part's end.
        if next <= first {
            return Err(format!(
                "{name}: block {block} at {first:06X} has no words before {next:06X}"
            ));
        }
        rows.push(Row {
            first,
            last: next - 1,
            block,
            bank,
        });
    }
    Ok(Part { name, words, rows })
}

// Every word of the part lies in exactly one row, and every block has a row.
fn check_cover(part: &Part) -> Result<(), String> {
    let name = part.name;
    let mut expected = 0;
    let mut seen = [false; BLOCKS];
    for row in &part.rows {
        if row.first != expected {
            return Err(format!(
                "{name}: block {} starts at {:06X}, not at {expected:06X}",
                row.block, row.first
            ));
        }
        match seen.get_mut(row.block as usize) {
            Some(s) if !*s => *s = true,
            Some(_) => return Err(format!("{name}: block {} is listed twice", row.block)),
            None => return Err(format!("{name}: there is no block {}", row.block)),
        }
        if row.bank >= BANKS {
            return Err(format!("{name}: there is no bank {}", row.bank));
        }
        expected = row.last + 1;
    }
    if expected != part.words {
        return Err(format!("{name}: covers {expected} of {} words", part.words));
    }
    if let Some(block) = seen.iter().position(|s| !s) {
        return Err(format!("{name}: block {block} is not listed"));
    }
    Ok(())
}

// Read from its upper end, the top part is the bottom part. The two sets of
// tables were printed apart, so a slip in one of them shows here.
fn check_mirror(bottom: &Part, top: &Part) -> Result<(), String> {
    let names = format!("{} and {}", bottom.name, top.name);
    if bottom.words != top.words || bottom.rows.len() != top.rows.len() {
        return Err(format!("{names} differ in length"));
    }
    let end = bottom.words - 1;
    for (b, t) in bottom.rows.iter().zip(top.rows.iter().rev()) {
        let same = b.first == end - t.last
            && b.last == end - t.first
            && b.block == t.block
            && b.bank == t.bank;
        if !same {
            return Err(format!(
                "{names} are no mirror: block {} bank {} {:06X}-{:06X} \
                 against block {} bank {} {:06X}-{:06X}",
                b.block, b.bank, b.first, b.last, t.block, t.bank, t.first, t.last
            ));
        }
    }
    Ok(())
}

// In the order of the part numbers 0 to 3.
fn checked_parts() -> Result<[Part; 4], String> {
    let parts = [
        part("full bottom", &BOTTOM, 1)?,
        part("full top", &TOP, 1)?,
        part("bench bottom", &BOTTOM, BENCH_SCALE)?,
        part("bench top", &TOP, BENCH_SCALE)?,
    ];
    for p in &parts {
        check_cover(p)?;
    }
    check_mirror(&parts[0], &parts[1])?;
    check_mirror(&parts[2], &parts[3])?;
    Ok(parts)
}

fn print(parts: &[Part]) -> io::Result<()> {
    let mut out = BufWriter::new(io::stdout().lock());
    for (number, part) in parts.iter().enumerate() {
        for row in &part.rows {
            writeln!(
                out,
                "{number} {:06X} {:06X} {} {}",
                row.first, row.last, row.block, row.bank
            )?;
        }
    }
    out.flush()
}

fn main() -> ExitCode {
    // Nothing is printed before all checks hold, so a reader never gets a
    // wrong map from here.
    let done = checked_parts()
        .and_then(|parts| print(&parts).map_err(|e| format!("cannot write the map: {e}")));
    match done {
        Ok(()) => ExitCode::SUCCESS,
        Err(message) => {
            eprintln!("sheet_map: {message}");
            ExitCode::from(1)
        }
    }
}
