//! Cases of the configuration register, whose bits 14, 5 and 4 are reserved
//! (document 02, item 4). The masks here are written out by hand, and not taken
//! from the model.

use crate::journal::Recorder;
use crate::model::{Device, Erase, Flags, Mode, Operation, Part, Program, Setup};
use crate::steps::Step;
use crate::{check_example, Bench, Change};

/// "The default becomes BFCFh": all bits but the reserved ones.
const DEFAULT: u16 = 0xBFCF;
const RESERVED: [u16; 3] = [0x4000, 0x0020, 0x0010];

/// Plays all cases; gives their number.
pub fn check() -> u32 {
    let cases = [
        worked_examples,
        default_after_power_up,
        default_after_reset,
        each_bit_alone,
        every_address_by_its_lower_bits,
        address_and_not_location,
        no_flag_and_nothing_else,
        only_a_lock_takes_03h,
        whenever_a_lock_is_taken,
        every_bank_shows_it,
        nothing_in_the_journal,
    ];
    for case in cases {
        case();
    }
    cases.len() as u32
}

impl Bench {
    /// 60h at one address and 03h at another, which names the register.
    fn set_register(&mut self, set_up: u32, address: u32) {
        self.write(set_up, &[0x60]);
        self.write(address, &[0x03]);
    }

    /// The register as a read in a bank in signature mode shows it.
    fn register(&mut self, bank: u32) -> u16 {
        let start = self.device.part.bank_start(bank).unwrap();
        self.write(start, &[0x90]);
        self.read(start + 5)
    }
}

fn worked_examples() {
    // The default, and FFFFh stored as it; 00FFFF marks bank 15.
    check_example(
        "W 000000 0090; R 000005 = BFCF; W 00FFFF 0060; W 00FFFF 0003; R 000005 = BFCF;
         R 003C00 = 0080",
    );
    // 5432h is stored as 1402h, 4030h as 0000h; reset gives the default.
    check_example(
        "W 000000 0090; W 005432 0060; W 005432 0003; R 000005 = 1402; W 004030 0060;
         R 000005 = 0080; W 004030 0003; W 000000 0090; R 000005 = 0000; Z; W 000000 0090;
         R 000005 = BFCF",
    );
}

fn default_after_power_up() {
    for part in Part::ALL {
        assert_eq!(Device::power_up(part.number()).configuration, DEFAULT);
    }
    for part in [2, 3] {
        assert_eq!(Bench::new(part, 0xFFFF).register(0), DEFAULT);
    }
}

/// "Reset gives the power-up state but keeps the supply", whatever was stored.
fn default_after_reset() {
    for supply in [false, true] {
        let mut bench = Bench::new(2, 0xFFFF);
        bench.step(Step::Supply(supply));
        let fresh = bench.device.clone();
        for address in [0x0000, 0xFFFF, 0x4030, 0x1234, 0xBFCF, 0x8000] {
            bench.set_register(address, address);
            bench.step(Step::Reset);
            assert_eq!(bench.device, fresh, "{address:04X}");
        }
    }
}

/// Of the 16 bits, 13 are stored as written and three as 0, whatever the others.
fn each_bit_alone() {
    let mut bench = Bench::new(2, 0xFFFF);
    for bit in 0..16 {
        let stored = u16::from(![14, 5, 4].contains(&bit)) << bit;
        bench.set_register(0, 1 << bit);
        assert_eq!(bench.register(0), stored, "bit {bit} alone");
        bench.set_register(0, 0xFFFF ^ 1 << bit);
        assert_eq!(bench.register(0), DEFAULT ^ stored, "all but bit {bit}");
    }
}

/// "the address modulo 65,536": bits 16 to 23 say nothing, on any part, and the
/// set-up's address neither.
fn every_address_by_its_lower_bits() {
    for part in [2, 3] {
        let mut bench = Bench::new(part, 0xFFFF);
        for lower in 0..0x1_0000_u32 {
            let upper = lower.wrapping_mul(0x9E37) & 0xFF_0000;
            let address = upper | lower;
            bench.set_register(address ^ 0xFF_FFFF, address);
            let stored = lower as u16 & 0xBFCF;
            assert_eq!(bench.device.configuration, stored, "{address:06X}");
        }
    }
    for part in Part::ALL {
        let mut bench = Bench::new(part.number(), 0xFFFF);
        for address in [0xFF_FFFF, 0xFF_0000, 0x01_4030, 0x80_5432, 0xAB_C405] {
            bench.set_register(0, address);
            let stored = address as u16 & 0xBFCF;
            assert_eq!(bench.register(7), stored, "{address:06X} on {part:?}");
        }
    }
}

/// A bench part's location has 14 bits of the address, and the register has 16:
/// bit 14 goes because it is reserved, and bit 15 stays.
fn address_and_not_location() {
    for part in [2, 3] {
        let mut bench = Bench::new(part, 0xFFFF);
        for lines in 0..4_u32 {
            for low in [0x0000, 0x0005, 0x0030, 0x1234, 0x3FFF] {
                let address = lines << 14 | low;
                bench.set_register(low, address);
                let stored = (lines & 2) << 14 | low & !0x30;
                assert_eq!(u32::from(bench.register(0)), stored, "{address:06X}");
            }
        }
    }
}

/// A reserved bit in the address sets no flag and clears none; the two cycles mark
/// their banks, and all else of the device and the array stay.
fn no_flag_and_nothing_else() {
    for flags in 0..16 {
        let mut bench = Bench::new(2, 0x1234);
        let bit = |place: u32| flags >> place & 1 == 1;
        bench.device.flags = Flags {
            sr5: bit(3),
            sr4: bit(2),
            sr3: bit(1),
            sr1: bit(0),
        };
        for address in [0x0000, 0x4000, 0x0020, 0x0010, 0x4030, 0xFFFF, 0x8001] {
            let mut due = bench.device.clone();
            due.modes[1] = Mode::Status; // the set-up's bank
            let place = due.part.place(due.part.location(address)).unwrap();
            due.modes[place.bank as usize] = Mode::Status;
            due.configuration = address as u16 & 0xBFCF;
            bench.set_register(0x400, address);
            assert_eq!(bench.device, due, "{address:04X}");
        }
        assert!(bench.array.iter().all(|&word| word == 0x1234));
    }
}

/// 03h is no command, no confirm and only as a lower byte the register's; other
/// lock cycles leave the register.
fn only_a_lock_takes_03h() {
    let mut bench = Bench::ready(&[4]);
    bench.set_register(0, 0x8181);
    bench.write(0x1234, &[0x03]);
    bench.write(0x1234, &[0x20, 0x03]);
    bench.write(0x1234, &[0xE8, 0x0000, 0x0003, 0x0003]);
    bench.write(0x0041, &[0x40, 0x0003]);
    assert_eq!(bench.work(1), 1);
    for command in [0x00, 0x01, 0x02, 0x04, 0x2F, 0xD0, 0xFF, 0x0300] {
        bench.write(0x1234, &[0x60, command]);
    }
    assert_eq!(bench.register(0), 0x8181);
    bench.write(0xFFFF, &[0xAB60, 0xCD03]);
    assert_eq!(bench.register(0), DEFAULT);
}

/// With any supply and protection, and beside a suspended erase; not while
/// something runs or a program is suspended.
fn whenever_a_lock_is_taken() {
    let mut bench = Bench::ready(&[4, 5]);
    bench.write(0x40, &[0x20, 0xD0]);
    bench.set_register(0xFFFF, 0xFFFF);
    bench.set_register(0x0000, 0x0000);
    assert_eq!(bench.device.configuration, DEFAULT);
    bench.write(0x40, &[0xB0]);
    bench.set_register(0x40, 0x4051);
    assert_eq!(bench.register(0), 0x0041);
    bench.write(0x80, &[0x40, 0x1234, 0xB0]);
    bench.set_register(0xFFFF, 0xFFFF);
    assert_eq!(bench.register(0), 0x0041);
    bench.write(0x80, &[0xD0]);
    assert_eq!(bench.work(1), 1);
    bench.step(Step::Supply(false));
    bench.set_register(0x3FFF, 0x7FFF);
    assert_eq!(bench.register(0), 0x3FCF);
}

/// There is one register, at offset 5 of each bank.
fn every_bank_shows_it() {
    for part in [2, 3] {
        let mut bench = Bench::new(part, 0xFFFF);
        for bank in 0..16 {
            let address = 0xFFFF ^ 0x1111 * bank;
            bench.set_register(bank * 1024, address);
            for shown in 0..16 {
                assert_eq!(bench.register(shown), address as u16 & 0xBFCF);
            }
        }
    }
}

/// The journal knows no register: 03h ends the set-up, and no more.
fn nothing_in_the_journal() {
    let mut recorder = Recorder::new(2);
    for address in [0x0000, 0x4030, 0xFFFF] {
        recorder.note(Step::Write(address, 0x60));
        assert!(recorder.set_up_pending());
        recorder.note(Step::Write(address, 0x03));
        assert!(!recorder.set_up_pending());
    }
    assert!(recorder.entries().is_empty());
    assert!(recorder.unprotected_blocks().iter().all(|&open| !open));
}

/// "a well made state has them 0": each reserved bit and each union of them, beside
/// the other bits and in devices of many shapes, power-up first. Gives the number of
/// states that are not well formed.
pub fn check_states() -> u32 {
    let unions = (1..8_u16).map(|set| {
        let chosen = (0..3).filter(|place| set >> place & 1 == 1);
        chosen.map(|place| RESERVED[place]).sum::<u16>()
    });
    let registers: Vec<u16> = unions
        .flat_map(|union| others().map(move |other| union | other))
        .collect();
    let mut count = 0;
    for shape in SHAPES {
        for &register in &registers {
            count += crate::check_states(&[&|d| put(d, shape, register)], &[]);
        }
        for register in others() {
            crate::check_states(&[], &[&|d| put(d, shape, register)]);
        }
    }
    check_all_registers();
    count
}

/// Bits that are not reserved: none, each alone, all.
fn others() -> impl Iterator<Item = u16> {
    let alone = (0..16).map(|bit| 1 << bit).filter(|bit| DEFAULT & bit != 0);
    [0, DEFAULT].into_iter().chain(alone)
}

fn put(device: &mut Device, shape: Change, register: u16) {
    shape(device);
    device.configuration = register;
}

const WORD: Program = Program::Word {
    location: 0x80,
    data: 7,
};
const ERASE: Erase = Erase { block: 4, done: 1 };

/// Devices that are well formed but for their register; the lock set-up waits for
/// the 03h that would make it good.
const SHAPES: [Change; 5] = [
    &|_| {},
    &|d| d.setup = Some(Setup::Lock),
    &|d| d.running = Some(Operation::Erase(ERASE)),
    &|d| (d.suspended_program, d.suspended_erase) = (Some(WORD), Some(ERASE)),
    &|d| (d.setup, d.supply) = (Some(Setup::LoadCount { block: 4 }), true),
];

/// Every register there is, by the rule and by the report; what is well formed is
/// shown as it is.
fn check_all_registers() {
    let mut bench = Bench::new(2, 0xFFFF);
    bench.write(0, &[0x90]);
    for register in 0..=0xFFFF {
        let good = register & 0x4030 == 0;
        bench.device.configuration = register;
        assert_eq!(bench.device.well_formed(), good, "{register:04X}");
        let refusal = bench.device.unprotected_report().refusal;
        assert_eq!(refusal, if good { 0 } else { 2 }, "{register:04X}");
        if good {
            assert_eq!(bench.read(5), register);
        }
    }
}
