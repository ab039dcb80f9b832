//! Worked examples, with values that are not this program's own output.

use crate::caches::Caches;
use crate::clock::Clock;
use crate::control::{Control, Exception};
use crate::image::{Image, ImageFault, ROM};
use crate::log::{Event, FORMAT_1_END, GREATEST, Kind, Log, LogFault};
use crate::machine::{Machine, Parts};
use crate::serial::Serial;
use crate::session::Session;
use crate::table::{self, ROWS};
use crate::translation::{Entries, Entry};
use crate::{edits, random, replies, without};

/// The replies to a script, whose lines are parted by semicolons, as one line of the same kind.
fn answers(session: &mut Session, script: &str) -> String {
    let replies = replies(session, script.replace("; ", "\n").as_bytes());
    replies.trim_end().replace('\n', "; ")
}

fn image_of(code: &[u32]) -> Image {
    Image::raw_rom(&code.iter().flat_map(|word| word.to_le_bytes()).collect::<Vec<u8>>()).unwrap()
}

fn session_of(code: &[u32]) -> Session {
    Session::new(image_of(code), Log::default(), Parts::ALL)
}

fn hex(text: &str) -> Vec<u8> {
    let digits: Vec<u8> = text.bytes().filter(|byte| !byte.is_ascii_whitespace()).collect();
    digits.chunks(2).map(|pair| u8::from_str_radix(std::str::from_utf8(pair).unwrap(), 16).unwrap()).collect()
}

/// The echo image: it receives and sends on line 0.
fn echo() -> Session {
    let first = "3C01BFE0 3C08A000 24041000 AC240008 24050001 AC250010 24050020 0BF00400 AC250000";
    let second = "8C260008 00000000 AD060100 00063C00 04E10004 00000000 AD000104 0BF0040C AC260018 00000000 00000000 \
                  00000000 0BF00400 00000000";
    let mut session = session_of(&[]);
    for (begin, words) in [(ROM, first), (ROM + 0x1000, second)] {
        let words = words.split_whitespace().map(|word| u32::from_str_radix(word, 16).unwrap());
        session.image.words.extend((begin..).step_by(4).zip(words));
    }
    session
}

const EMPTY_IMAGE: &str = "52334b494d47310a 10000000 01000000 000000000000010101002006 00000000";

#[test]
fn empty_image_and_faults() {
    let bytes = hex(EMPTY_IMAGE);
    assert!(Image::read(&bytes).unwrap().words.is_empty());
    assert_eq!(Image::read(&bytes[..31]), Err(ImageFault::Short));
    assert_eq!(Image::read(&[&bytes[..], &[0]].concat()), Err(ImageFault::Extra));
    let with = |at: usize, put: &[u8]| {
        let mut bytes = bytes.clone();
        bytes.splice(at.., put.iter().copied());
        Image::read(&bytes).unwrap_err()
    };
    assert_eq!(with(8, &hex("00000000")), ImageFault::ByteTime);
    assert_eq!(with(8, &hex("00000100")), ImageFault::ByteTime);
    assert_eq!(with(16, &hex("000000000000010101008006")), ImageFault::ClockStart);
    assert_eq!(with(28, &hex("ffffffff")), ImageFault::Short);
    assert_eq!(with(28, &hex("01000000 00000000 00000040")), ImageFault::Segment);
    assert_eq!(with(28, &hex("01000000 00000000 00008000")), ImageFault::Short);
    assert_eq!(with(28, &hex("01000000 fcffffff 02000000")), ImageFault::Segment);
    assert_eq!(Image::raw_rom(&vec![0; 262_145]), Err(ImageFault::RawSize));
    assert!(!Image { words: [(0x10000, 1)].into(), ..image_of(&[]) }.fits(16));
}

#[test]
fn reset_registers() {
    let mut want = "pos 0; pc 0xbfc00000 next 0xbfc00004 hi 0x00000000 lo 0x00000000 delay 0 load none".to_string();
    for first in (0..32).step_by(4) {
        want += &format!("; r{first} 0x00000000 0x00000000 0x00000000 0x00000000");
    }
    assert_eq!(answers(&mut session_of(&[]), "goto 0; regs"), want);
}

const LOAD_SLOT: &str = "52334b494d47310a 10000000 01000000 000000000000010101002006 02000000 00010000 01000000 05000000 \
                         0000c01f 04000000 00a0013c 0001228c 21184000 21204000";

#[test]
fn load_slot() {
    let bytes = hex(LOAD_SLOT);
    let image = Image::read(&bytes).unwrap();
    assert_eq!(image.write(), bytes);
    let mut session = Session::new(image, Log::default(), Parts::ALL);
    let got = answers(&mut session, "goto 2; regs");
    let state = "pos 2; pc 0xbfc00008 next 0xbfc0000c hi 0x00000000 lo 0x00000000 delay 0 load r2 0x00000005; ";
    assert!(got.starts_with(&(state.to_string() + "r0 0x00000000 0xa0000000 0x00000000 0x00000000;")), "{got}");
    let script = "goto 3; reg 2; reg 3; step 1; reg 4";
    assert_eq!(answers(&mut session, script), "pos 3; r2 0x00000005; r3 0x00000000; pos 4; r4 0x00000005");
    session.image.words.insert(ROM + 8, 0x2442_0001);
    assert_eq!(answers(&mut session, "goto 3; reg 2"), "pos 3; r2 0x00000001");
}

#[test]
fn system_call_in_a_delay_slot() {
    let mut session = session_of(&[0x3C01_0040, 0x3421_0001, 0x4081_6000, 0x1000_0003, 0x0000_000C]);
    let want = "pos 5; index 0x00000000 random 0x00003a00 entrylo 0x00000000 context 0x00000000 badvaddr 0x00000000 \
                entryhi 0x00000000 status 0x00400004 cause 0x80000020 epc 0xbfc0000c prid 0x00000220";
    assert_eq!(answers(&mut session, "goto 5; cp0"), want);
    assert!(answers(&mut session, "regs").starts_with("pc 0xbfc00180 "));
}

#[test]
fn random_falls() {
    let mut session = session_of(&[]);
    assert!(answers(&mut session, "goto 55; cp0").contains(" random 0x00000800 "));
    assert!(answers(&mut session, "goto 56; cp0").contains(" random 0x00003f00 "));
}

#[test]
fn translation_faults() {
    let cases: [(&[u32], u64, &str, &[&str]); 4] = [
        (
            &[0x8C02_1000],
            1,
            "0xbfc00100",
            &["cause 0x00000008", "badvaddr 0x00001000", "context 0x00000004", "entryhi 0x00001000", "epc 0xbfc00000"],
        ),
        (
            &[0x3C01_C000, 0x8C22_0000],
            2,
            "0xbfc00180",
            &["cause 0x00000008", "badvaddr 0xc0000000", "context 0x00100000", "entryhi 0xc0000000", "epc 0xbfc00004"],
        ),
        (
            &[0x2401_2000, 0x4081_5000, 0x2402_0200, 0x4082_1000, 0x4200_0002, 0xAC20_0000],
            6,
            "0xbfc00180",
            &["cause 0x00000004", "badvaddr 0x00002000", "context 0x00000008", "epc 0xbfc00014"],
        ),
        // At reset all entries are for the first page, and none is valid: several match.
        (&[0x8C02_0000], 1, "0xbfc00180", &["cause 0x00000008", "status 0x00600000"]),
    ];
    for (code, position, pc, wants) in cases {
        let mut session = session_of(code);
        let control = answers(&mut session, &format!("goto {position}; cp0"));
        for want in wants {
            assert!(control.contains(want), "{want} in {control}");
        }
        assert!(answers(&mut session, "regs").starts_with(&format!("pc {pc} ")));
    }
}

#[test]
fn translation_lookup() {
    let mut entries = Entries::new();
    entries.0[5] = Entry { hi: 0x3040, lo: 0x7200 };
    assert_eq!(entries.lookup_address(0x3000, 0), None);
    assert_eq!(entries.lookup_address(0x3000, 1 << 6).unwrap().index, 5);
    entries.0[5].lo = 0x7300;
    assert_eq!(entries.lookup_address(0x3000, 0).unwrap().index, 5);
    entries.0[9] = Entry { hi: 0x3000, lo: 0x8200 };
    let found = entries.lookup_address(0x3000, 0).unwrap();
    assert_eq!((found.index, found.several), (5, true));
}

#[test]
fn isolated_caches() {
    let mut session =
        session_of(&[0x3C01_8000, 0x3C02_0041, 0x2403_0007, 0x4082_6000, 0xAC23_0040, 0x3C04_8001, 0x8C85_0040]);
    let got = answers(&mut session, "goto 7; regs; cp0");
    assert!(got.contains("load r5 0x00000007") && got.contains("status 0x00490000"), "{got}");
    assert_eq!(answers(&mut session, "mem 0x40 1; writer 0x40"), "0x00000040 0x00000000; writer never");

    let mut caches = Caches::new();
    caches.store_word(false, 0x40, 7);
    assert_eq!(caches.load(false, 0x40), (7, true));
    assert_eq!(caches.load(false, 0x10040), (7, false));
    caches.store_part(false, 0x40);
    assert_eq!(caches.load(false, 0x40), (7, false));
    assert_eq!(caches.load(true, 0x40), (0, false));
}

#[test]
fn full_silo() {
    let mut serial = Serial::new(16);
    serial.write(8, 0x1000, 15);
    serial.write(0, 0x20, 15);
    for byte in 0..65 {
        serial.receive(0, byte, false);
    }
    assert_eq!(serial.read(0), 0x00A0);
    assert_eq!(serial.read(8), 0x8000);
    serial.receive(0, 0x41, false);
    let last = (0..63).map(|_| serial.read(8)).last();
    assert_eq!(last, Some(0x803F));
    assert_eq!(serial.read(8), 0xC041);
    assert_eq!(serial.read(8), 0);
}

#[test]
fn framing_errors() {
    let mut serial = Serial::new(16);
    serial.write(8, 0x1000, 15);
    // The scanner is off, then the receiver of line 1 is.
    serial.receive(0, 1, true);
    serial.write(0, 0x20, 15);
    serial.receive(1, 2, true);
    assert_eq!(serial.read(8), 0);
    for byte in 0..65 {
        serial.receive(0, byte, false);
    }
    assert_eq!(serial.read(8), 0x8000);
    serial.receive(0, 0x41, true);
    let last = (0..63).map(|_| serial.read(8)).last();
    assert_eq!(last, Some(0x803F));
    assert_eq!(serial.read(8), 0xE041);
    // One that finds the silo full is lost, and the next character has the mark of it.
    for byte in 0..64 {
        serial.receive(0, byte, true);
    }
    serial.receive(0, 0x42, true);
    assert_eq!(serial.read(8), 0xA000);
    serial.receive(0, 0x43, false);
    let last = (0..63).map(|_| serial.read(8)).last();
    assert_eq!(last, Some(0xA03F));
    assert_eq!(serial.read(8), 0xC043);
}

fn cause(session: &mut Session, position: u32) -> String {
    let control = answers(session, &format!("goto {position}; cp0"));
    control.split(" cause ").nth(1).unwrap()[..10].to_string()
}

#[test]
fn serial_interrupt() {
    let code = [0x3C01_BFE0, 0x3C02_BFF0, 0x3C03_0080, 0xAC43_0000, 0x2404_1000, 0xAC24_0008, 0x2405_0060, 0xAC25_0000];
    let mut session = session_of(&code);
    assert_eq!(answers(&mut session, "add 10 0 0x41"), "event 0");
    assert_eq!(cause(&mut session, 10), "0x00000000");
    assert_eq!(cause(&mut session, 11), "0x00000400");
    assert_eq!(answers(&mut session, "move 0 11"), "event 0");
    assert_eq!(cause(&mut session, 11), "0x00000000");
}

#[test]
fn external_lines() {
    let mut session = session_of(&[0x3C02_BFF0, 0x3C03_0001, 0xAC43_0000]);
    let want = "event 0; event 1; log 2; 0 10 0 0x01 wire; 1 20 0 0x00 wire";
    assert_eq!(answers(&mut session, "wire 10 0 1; wire 20 0 0; log 0 2"), want);
    for (position, want) in [(10, "0x00000000"), (11, "0x00000400"), (20, "0x00000400"), (21, "0x00000000")] {
        assert_eq!(cause(&mut session, position), want, "at {position}");
    }
    let script = "set 0 2; wire 5 3 1; set 0 0";
    assert_eq!(answers(&mut session, script), "error 3 Range; error 3 Range; event 0");
    assert_eq!(cause(&mut session, 11), "0x00000000");
    // A byte above 255 is judged first, then whether there is such an event, then its kind.
    let script = "set 2 2; set 2 256; set 1 256; set 1 255; move 1 7; log 0 8; add 5 0 1; set 0 255; log 0 1";
    let want = "error 4 NoEvent; error 3 Range; error 3 Range; error 3 Range; event 0; log 2; 0 7 0 0x00 wire; \
                1 10 0 0x00 wire; event 0; event 0; log 3; 0 5 0 0xff";
    assert_eq!(answers(&mut session, script), want);
}

#[test]
fn external_lines_in_the_register() {
    // lui r2, 0xbff0; lui r3, 7; sw r3, 0(r2); lw r4, 0(r2); nop
    let mut session = session_of(&[0x3C02_BFF0, 0x3C03_0007, 0xAC43_0000, 0x8C44_0000, 0]);
    // In the step of the load line 0 rises, line 1 rises and falls, and line 2 gets the level that it has.
    let script = "wire 3 0 1; wire 3 1 1; wire 3 1 0; wire 1 2 1; wire 3 2 1; goto 5; reg 4";
    let want = "event 0; event 1; event 2; event 0; event 4; pos 5; r4 0x00070005";
    assert_eq!(answers(&mut session, script), want);
    // lui r1, 0xbfe0; addiu r5, r0, 0x10; lui r2, 0xbff0; sw r5, 0(r1), which clears the serial part; lw r4, 0(r2)
    let mut session = session_of(&[0x3C01_BFE0, 0x2405_0010, 0x3C02_BFF0, 0xAC25_0000, 0x8C44_0000, 0]);
    assert_eq!(answers(&mut session, "wire 0 1 1; goto 6; reg 4"), "event 0; pos 6; r4 0x00000002");
}

#[test]
fn external_interrupt() {
    // lui r2, 0xbff0; lui r3, 4; sw r3, 0(r2); lui r1, 0x40; ori r1, r1, 0x401; mtc0 r1, c12
    let code = [0x3C02_BFF0, 0x3C03_0004, 0xAC43_0000, 0x3C01_0040, 0x3421_0401, 0x4081_6000];
    let mut session = session_of(&code);
    // Line 0 is not enabled. Line 2 interrupts in the step in which it rises.
    let got = answers(&mut session, "wire 6 0 1; wire 8 2 1; goto 8; regs; step 1; regs; cp0");
    let state = "event 0; event 1; pos 8; pc 0xbfc00020 ";
    assert!(got.starts_with(state) && got.contains("; pos 9; pc 0xbfc00180 "), "{got}");
    assert!(got.contains(" status 0x00400404 cause 0x00000400 epc 0xbfc00020 "), "{got}");
}

#[test]
fn clock() {
    let start = |text: &str| hex(text).try_into().unwrap();
    let ticks = |clock: &mut Clock, count: u32| (0..count).for_each(|_| clock.tick());
    let time = |clock: &mut Clock| (0..10).map(|register| clock.read(register)).collect::<Vec<u8>>();

    let mut clock = Clock::new(start("59 00 59 00 23 00 07 28 02 04 20 02"), 1);
    ticks(&mut clock, 8189);
    assert_eq!(clock.read(10), 0x20);
    ticks(&mut clock, 1);
    assert_eq!(clock.read(10), 0xA0);
    ticks(&mut clock, 2);
    assert_eq!(time(&mut clock), hex("00 00 00 00 00 00 01 29 02 04"));
    assert_eq!((clock.read(12), clock.read(12)), (0x30, 0x00));

    let mut clock = Clock::new(start("3b 00 3b 00 8b 00 07 1f 0c 63 20 04"), 1);
    ticks(&mut clock, 8192);
    assert_eq!(time(&mut clock), hex("00 00 00 00 0c 00 01 01 01 00"));
    assert_eq!(clock.read(12), 0x10);

    let mut clock = Clock::new(start("00 00 00 00 00 00 01 01 01 00 23 46"), 1);
    ticks(&mut clock, 1);
    assert!(clock.line());
    assert_eq!((clock.read(12), clock.read(12)), (0xC0, 0x00));
    assert!(!clock.line());
}

#[test]
fn edited_echo() {
    let script = "goto 256; writer 0x100; writer 0x104; console 0 0 8; add 70 0 0x41; writer 0x104; writer 0x100; \
                  console 0 0 8; find 0 0; find 0 1";
    let want = "pos 256; writer 253; writer never; console 0 0 none; event 0; writer 81; writer 253; console 0 1 41; \
                find 83; error 8 NotFound";
    assert_eq!(answers(&mut echo(), script), want);
}

#[test]
fn framing_error_in_the_echo() {
    let mut session = echo();
    answers(&mut session, "goto 256; add 70 0 0x41");
    let script = "del 0; ferr 70 0 0x41; log 0 1; writer 0x104; console 0 0 8; goto 78; mem 0x100 1";
    let want = "log 0; event 0; log 1; 0 70 0 0x41 framing; writer 81; console 0 1 41; pos 78; 0x00000100 0x0000a041";
    assert_eq!(answers(&mut session, script), want);
    let bytes = hex("52334b4c4f47320a 01000000 4600000000000000 01 00 41");
    assert_eq!(session.log.write(), bytes);
    assert_eq!(Log::read(&bytes).unwrap(), session.log);
    assert_eq!(Log::read(&[&bytes[..20], &[3, 0, 0x41]].concat()), Err(LogFault::Kind));
}

#[test]
fn two_edits() {
    let script = "goto 256; writer 0x100; writer 0x104; console 0 0 8; add 70 0 0x41; add 200 0 0x42; writer 0x104; \
                  console 0 0 8; find 0 0; find 0 1; writer 0x100; del 1; writer 0x104";
    let want = "pos 256; writer 253; writer never; console 0 0 none; event 0; event 1; writer 213; console 0 2 4142; \
                find 83; find 215; writer 253; log 1; writer 81";
    assert_eq!(answers(&mut echo(), script), want);
}

#[test]
fn erased_ranges() {
    let script = "goto 256; writer 0x104; add 70 0 0x41; add 130 0 0x43; add 200 0 0x42; writer 0x104; console 0 0 8; \
                  erase 131 70; erase 70 131; log 0 8; writer 0x104; console 0 0 8; find 0 0; erase 0 0";
    let want = "pos 256; writer never; event 0; event 1; event 2; writer 213; console 0 3 414342; error 3 Range; log 1; \
                log 1; 0 200 0 0x42; writer 213; console 0 1 42; find 215; log 1";
    assert_eq!(answers(&mut echo(), script), want);
    // The first time of a range is erased and the last is not, with events of every kind. Equal times are no range.
    let mut session = session_of(&[]);
    answers(&mut session, "add 4 0 1; ferr 5 1 2; wire 5 2 1; add 6 0 3; add 7 0 4; add 1099511627774 0 5");
    let script = "erase 5 5; erase 8 1099511627774; erase 5 7; log 0 8; erase 7 1099511627775; \
                  erase 0 1099511627775; log 0 1";
    let want = "log 6; log 6; log 3; log 3; 0 4 0 0x01; 1 7 0 0x04; 2 1099511627774 0 0x05; log 1; log 0; log 0";
    assert_eq!(answers(&mut session, script), want);
    answers(&mut session, "add 4 0 1");
    let script = "erase 0 1099511627776; erase 1099511627776 1099511627776; erase 5 4; erase 1099511627775 0; erase 0; \
                  erase 0 5 1; erase 0 x; log 0 1";
    let want = "error 3 Range; error 3 Range; error 3 Range; error 3 Range; error 2 Syntax; error 2 Syntax; \
                error 2 Syntax; log 1; 0 4 0 0x01";
    assert_eq!(answers(&mut session, script), want);
}

#[test]
fn patches() {
    let mut session = echo();
    let script = "goto 256; writer 0x100; patch 0x100 0x1234; writer 0x100; goto 11; mem 0x100 1; writer 0x100; step 1; \
                  mem 0x100 1; writer 0x100";
    let want = "pos 256; writer 253; ok; writer 253; pos 11; 0x00000100 0x00001234; writer image; pos 12; \
                0x00000100 0x00000000; writer 11";
    assert_eq!(answers(&mut session, script), want);
    let script =
        "goto 256; patch 0x1fc00010 0x24050011; writer 0x100; mem 0x1fc00010 1; patch 0x1fe00000 0; patch 0x102 0";
    let want = "pos 256; ok; writer 253; 0x1fc00010 0x24050011; error 6 NotMemory; error 5 Unaligned";
    assert_eq!(answers(&mut session, script), want);
}

#[test]
fn last_writer_and_limits() {
    let script = "goto 2; writer 0x40; writer 0x200; writer 0x1fc00000; goto 4294967295; step 1; goto 4294967296; pos; \
                  goto 0; back 1; add 4294967295 0 1";
    let want = "pos 2; writer 1; writer never; writer image; pos 4294967295; pos 4294967296; pos 4294967296; \
                pos 4294967296; pos 0; error 7 TooFar; event 0";
    let mut session = session_of(&[0x3C01_A000, 0xA020_0043]);
    assert_eq!(answers(&mut session, script), want);
    assert_eq!(session.log.write(), hex("52334b4c4f47320a 01000000 ffffffff00000000 00 00 01"));
    let script = "goto 1099511627775; step 1; goto 1099511627776; pos; add 1099511627775 0 1";
    let want = "pos 1099511627775; error 7 TooFar; error 7 TooFar; pos 1099511627775; error 3 Range";
    assert_eq!(answers(&mut session, script), want);
    let script = "visit 0xbfc00000 1; add 1099511627774 0 1; move 0 1099511627775; ferr 1099511627775 0 1; \
                  wire 1099511627775 0 1; log 0 8";
    let want = "error 7 TooFar; event 1; error 3 Range; error 3 Range; error 3 Range; log 2; 0 4294967295 0 0x01; \
                1 1099511627774 0 0x01";
    assert_eq!(answers(&mut session, script), want);
}

#[test]
fn log_commands() {
    let script = "add 5 0 1; add 5 0 2; add 4 0 3; log 0 8; move 1 5; del 0; set 0 0xff; log 1 1; set 2 256; set 2 255; \
                  foo; reg; reg 32; mem 0x101 1; mem 0x1fe00000 1; pos";
    let want = "event 0; event 1; event 0; log 3; 0 4 0 0x03; 1 5 0 0x01; 2 5 0 0x02; event 2; log 2; event 0; log 2; \
                1 5 0 0x01; error 3 Range; error 4 NoEvent; error 2 Syntax; error 2 Syntax; error 3 Range; \
                error 5 Unaligned; error 6 NotMemory; pos 0";
    assert_eq!(answers(&mut session_of(&[]), script), want);
}

#[test]
fn log_format() {
    let bytes = hex("52334b4c4f47310a 01000000 46000000 00 41");
    let log = Log::read(&bytes).unwrap();
    assert_eq!(log.events, [Event { time: 70, kind: Kind::Byte, line: 0, byte: 0x41 }]);
    assert_eq!(log.write(), bytes);
    assert_eq!(Log::read(&bytes[..17]), Err(LogFault::Short));
    assert_eq!(Log::read(&[&bytes[..], &[0]].concat()), Err(LogFault::Extra));
    assert_eq!(Log::read(&hex("52334b4c4f47310a 01001000")), Err(LogFault::Count));
    assert_eq!(Log::read(&hex("52334b4c4f47310a 00001000")), Err(LogFault::Short));
    assert_eq!(Log::read(&hex("52334b4c4f47310a 02000000 05000000 00 00 04000000 00 00")), Err(LogFault::Time));
    assert_eq!(Log::read(&hex("52334b4c4f47310a 01000000 05000000 04 00")), Err(LogFault::Line));
    assert_eq!(Log::read(&hex("52334b4c4f47310a 01000000 ffffffff 04 00")), Err(LogFault::Time));
    assert_eq!(Log::read(&hex("52334b4c4f47300a 01000000 05000000 04 00")), Err(LogFault::Magic));
    assert_eq!(Log::read(&hex("52334b4c4f4732")), Err(LogFault::Short));
}

#[test]
fn second_log_format() {
    // A byte and a framing error of equal time, and a line of the board.
    let two = "52334b4c4f47320a 03000000 4600000000000000 00 03 ff 4600000000000000 01 01 00";
    let with = |time: &str, rest: &str| hex(&[two, time, rest].concat());
    let bytes = with("4700000000000000", "02 02 01");
    let log = Log::read(&bytes).unwrap();
    let event = |time, kind, line, byte| Event { time, kind, line, byte };
    let want = [event(70, Kind::Byte, 3, 255), event(70, Kind::Framing, 1, 0), event(71, Kind::Wire, 2, 1)];
    assert_eq!(log.events, want);
    assert_eq!(log.write(), bytes);
    assert!((0..bytes.len()).all(|end| Log::read(&bytes[..end]) == Err(LogFault::Short)));
    assert_eq!(Log::read(&[&bytes[..], &[0]].concat()), Err(LogFault::Extra));
    assert_eq!(Log::read(&hex("52334b4c4f47320a 01001000")), Err(LogFault::Count));
    // Of several faults the first in reading order is answered.
    let fault = |time, rest| Log::read(&with(time, rest)).unwrap_err();
    assert_eq!(fault("4500000000000000", "03 04 02"), LogFault::Time);
    assert_eq!(fault("47000000ffffffff", "03 04 02"), LogFault::Time);
    // The greatest time is one below the greatest position, 2^40 - 1, and that of format 1 is 2^32 - 2.
    assert_eq!(fault("ffffffffff000000", "00 00 00"), LogFault::Time);
    assert_eq!(Log::read(&with("feffffffff000000", "00 00 00")).unwrap().events[2].time, 1_099_511_627_774);
    assert_eq!(Log::read(&hex("52334b4c4f47310a 01000000 feffffff 00 00")).unwrap().events[0].time, 4_294_967_294);
    assert_eq!(fault("4700000000000000", "03 04 02"), LogFault::Kind);
    assert_eq!(fault("4700000000000000", "02 03 02"), LogFault::Line);
    assert_eq!(fault("4700000000000000", "01 04 02"), LogFault::Line);
    assert_eq!(fault("4700000000000000", "02 02 02"), LogFault::Value);
    // A log of sound bytes may stand in format 2, and is written in format 1.
    let log = Log::read(&hex("52334b4c4f47320a 01000000 4600000000000000 00 00 41")).unwrap();
    assert_eq!(log.write(), hex("52334b4c4f47310a 01000000 46000000 00 41"));
}

#[test]
fn random_logs_have_all_kinds() {
    let logs: Vec<Log> = (0..200).map(|seed| random::log(seed, Parts::ALL)).collect();
    for kind in [Kind::Byte, Kind::Framing, Kind::Wire] {
        assert!(logs.iter().flat_map(|log| &log.events).filter(|event| event.kind == kind).count() > 100);
    }
    assert!(logs.iter().all(|log| Log::read(&log.write()).as_ref() == Ok(log)));
    let (first, second): (Vec<&Log>, Vec<&Log>) = logs.iter().partition(|log| log.write()[6] == b'1');
    assert!(first.len() > 20);
    let far = |logs: &[&Log], end| logs.iter().filter(|log| log.events.last().is_some_and(|it| it.time >= end)).count();
    assert!(far(&first, FORMAT_1_END - 3) > 4 && far(&second, GREATEST - 3) > 20);
    let sound = Parts { kinds: false, ..Parts::ALL };
    let is_sound = |seed| random::log(seed, sound).events.iter().all(|event| event.kind == Kind::Byte);
    assert!((0..40).all(is_sound));
}

#[test]
fn where_dis_and_visit() {
    let script = "where 0x80000010; where 0xbfc00000; where 0x1000; where 0xc0000000; where 0; tlb 63";
    let want = "where 0x00000010 cached; where 0x1fc00000 uncached; where tlbl refill; where tlbl; where tlbl; \
                tlb 63 0x00000000 0x00000000";
    assert_eq!(answers(&mut session_of(&[]), script), want);
    let script = "dis 0x1fc01010 1; visit 0xbfc01000 9; visit 0xbfc01000 10; visit 0xbfc01000 11; visit 0xbfc01002 1";
    let want = "0x1fc01010 0x04e10004 bgez r7, 0x1fc01024; pos 9; error 8 NotFound; pos 20; error 5 Unaligned";
    assert_eq!(answers(&mut echo(), script), want);
}

#[test]
fn branch_in_a_delay_slot() {
    let got = answers(&mut session_of(&[0x1000_0003, 0x1000_0003]), "goto 2; regs");
    let want = "pos 2; pc 0xbfc00010 next 0xbfc00014 hi 0x00000000 lo 0x00000000 delay 1 load none;";
    assert!(got.starts_with(want), "{got}");
}

#[test]
fn meeting_in_the_load_slot() {
    let script = "goto 512; writer 0x104; add 383 0 0x41; writer 0x104; find 0 0; console 0 0 8";
    assert_eq!(answers(&mut echo(), script), "pos 512; writer never; event 0; writer 389; find 391; console 0 1 41");
}

#[test]
fn patched_loop() {
    let script = "goto 256; writer 0x100; patch 0x1fc01008 0xad060108; writer 0x100; writer 0x108";
    assert_eq!(answers(&mut echo(), script), "pos 256; writer 253; ok; writer never; writer 253");
}

#[test]
fn hostile_scripts() {
    let long = " ".repeat(257);
    let cases = [
        ("goto 18446744073709551615", "error 7 TooFar"),
        ("goto 18446744073709551616", "error 3 Range"),
        ("goto 1; step 18446744073709551615", "pos 1; error 7 TooFar"),
        ("mem 0xfffffffc 32", "error 6 NotMemory"),
        ("visit 0 0", "error 3 Range"),
        ("log 18446744073709551615 1", "log 0"),
        (&long, "error 2 Syntax"),
    ];
    for (script, want) in cases {
        assert_eq!(answers(&mut session_of(&[]), script), want, "{script}");
    }
}

/// What merging loads and division give, as the table's own examples have it.
#[test]
fn bytes_and_division() {
    // lui r1, 0xa000; lui and ori of r2 and r3; sw r2, 0(r1); lwl or lwr r3, 1(r1); nop
    for (load, want) in [(0x8823_0001, "r3 0x2211ccdd"), (0x9823_0001, "r3 0xaa443322")] {
        let code = [0x3C01_A000, 0x3C02_4433, 0x3442_2211, 0x3C03_AABB, 0x3463_CCDD, 0xAC22_0000, load, 0];
        assert_eq!(answers(&mut session_of(&code), "goto 8; reg 3"), format!("pos 8; {want}"));
    }
    // r1 and r2 are set; div or divu r1, r2
    let cases = [
        (0x0022_001A, 7, 0, 7, 0xFFFF_FFFF),
        (0x0022_001A, 0xFFFF_FFF9, 0, 0xFFFF_FFF9, 1),
        (0x0022_001B, 7, 0, 7, 0xFFFF_FFFF),
        (0x0022_001A, 0x8000_0000, 0xFFFF_FFFF, 0, 0x8000_0000),
        (0x0022_001A, 0xFFFF_FFF9, 2, 0xFFFF_FFFF, 0xFFFF_FFFD),
    ];
    for (word, first, second, hi, lo) in cases {
        let mut machine = Machine::new(&image_of(&[word]), Parts::ALL);
        (machine.registers[1], machine.registers[2]) = (first, second);
        machine.step(&[]);
        assert_eq!((machine.hi, machine.lo), (hi, lo), "{word:#010x} of {first:#x} and {second:#x}");
    }
}

/// The one big `match` and the table have the same instructions.
#[test]
fn every_row_is_run() {
    let mut random = 1u32;
    let mut words = Vec::new();
    for row in ROWS.iter().cycle().take(20_000) {
        random = random.wrapping_mul(1_664_525).wrapping_add(1_013_904_223);
        // A word of the row, the same with one bit turned, and any word.
        let word = row.value | random & !row.mask;
        words.extend([word, word ^ 1 << (random >> 27), random]);
    }
    let mut machine = Machine::new(&image_of(&words), Parts::ALL);
    for (place, &word) in words.iter().enumerate() {
        machine.control = Control::new();
        let ran = machine.instruct(0xBFC0_0000 + 4 * place as u32);
        let is_without_row = matches!(ran, Err(Exception::Reserved | Exception::Unusable(_)));
        assert_eq!(is_without_row, table::row_of(word).is_none(), "{word:#010x}");
    }
}

/// Random images keep running, with all parts and without: they make many kinds of exception and few come to rest.
#[test]
fn random_images_run() {
    let mut lacking = Parts::ALL;
    without(&mut lacking, "translation,caches,devices").unwrap();
    for parts in [Parts::ALL, lacking] {
        let mut codes = [0; 13];
        let mut places = std::collections::BTreeSet::new();
        for seed in 0..100 {
            let mut machine = Machine::new(&random::image(seed, parts), parts);
            let log = random::log(seed, parts);
            for time in 0..4000 {
                let now: Vec<Event> = log.events.iter().copied().filter(|event| event.time == time).collect();
                let pc = machine.pc;
                machine.step(&now);
                places.insert((seed, pc));
                if machine.pc & 0x7FFF_FF7F == 0x0 || [0xBFC0_0100, 0xBFC0_0180].contains(&machine.pc) {
                    codes[machine.control.cause as usize >> 2 & 15] += 1;
                }
            }
        }
        eprintln!("exceptions by code: {codes:?}; different words run: {}", places.len());
        let expected: &[usize] = if parts == Parts::ALL {
            &[0, 1, 2, 3, 4, 5, 7, 8, 9, 10, 11, 12]
        } else {
            &[0, 4, 5, 7, 8, 9, 10, 11, 12]
        };
        assert!(expected.iter().all(|&code| codes[code] > 0));
        assert!(places.len() > 100 * 150);
    }
}

/// After an added byte the reading loops mostly come back to the state that they had without it, some but for memory.
#[test]
fn edited_readers_meet() {
    let (mut meet, mut nearly) = (0, 0);
    for seed in 0..40 {
        let mut session = Session::new(edits::reader(seed), random::log(seed, Parts::ALL), Parts::ALL);
        let before = session.run(65_536, |_, _, _| {});
        session.log.add(Event { time: 5000, kind: Kind::Byte, line: 0, byte: 0x41 }).unwrap();
        let after = session.run(65_536, |_, _, _| {});
        meet += u32::from(before == after);
        nearly += u32::from(before != after && before == after.with_words_of(&before));
    }
    eprintln!("of 40 readers {meet} meet, and {nearly} but for memory");
    assert!(meet >= 8 && nearly >= 4);
}
