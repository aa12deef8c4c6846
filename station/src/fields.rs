//! Registers and option bytes in words: numbers by their value, single bits by
//! their names where they are set (PM0059 2.6.1 and 2.8). An access by byte or
//! half-word shows the fields that lie in its lanes.

use crate::job::Access;
use crate::map;
use crate::number;

pub const SER: u32 = 1 << 1;
pub const MER: u32 = 1 << 2;
pub const STRT: u32 = 1 << 16;
pub const BSY: u32 = 1 << 16;
pub const OPTSTRT: u32 = 1 << 1;

const SNB: u32 = 0xF << 3;
const PSIZE: u32 = 3 << 8;

const LOCK: (u32, &str) = (1 << 31, "LOCK");
const OPTLOCK: (u32, &str) = (1, "OPTLOCK");

const CR_BITS: [(u32, &str); 6] =
    [(1, "PG"), (SER, "SER"), (MER, "MER"), (STRT, "STRT"), (1 << 24, "EOPIE"), (1 << 25, "ERRIE")];

const FLAGS: [(u32, &str); 6] = [
    (1 << 7, "PGSERR"),
    (1 << 6, "PGPERR"),
    (1 << 5, "PGAERR"),
    (1 << 4, "WRPERR"),
    (1 << 1, "OPERR"),
    (1, "EOP"),
];

fn set<'a>(word: u32, bits: &'a [(u32, &'a str)]) -> impl Iterator<Item = &'a str> {
    bits.iter().filter(move |(bit, _)| word & bit != 0).map(|(_, name)| *name)
}

pub fn psize(cr: u32) -> u32 {
    cr >> 8 & 3
}

pub fn snb(cr: u32) -> usize {
    (cr >> 3 & 0xF) as usize
}

/// The flag that refusal 17 gives; its value is SR with that flag alone.
pub fn flag_name(value: u64) -> String {
    match FLAGS.iter().find(|(bit, _)| u64::from(*bit) == value) {
        Some((_, name)) => name.to_string(),
        None => number::hexadecimal(4, value),
    }
}

/// A side of the lines: its name, and the bits of ACR that switch it on and that
/// empty it.
#[derive(Clone, Copy)]
pub struct Side {
    pub name: &'static str,
    pub on: (u32, &'static str),
    pub empty: (u32, &'static str),
}

pub const DATA: Side = Side { name: "data", on: (1 << 10, "DCEN"), empty: (1 << 12, "DCRST") };
pub const INSTRUCTION: Side =
    Side { name: "instruction", on: (1 << 9, "ICEN"), empty: (1 << 11, "ICRST") };

const ACR_BITS: [(u32, &str); 4] = [DATA.on, INSTRUCTION.on, DATA.empty, INSTRUCTION.empty];

/// The lanes of a register that an access takes: which bits these are, and what
/// stands in them.
#[derive(Clone, Copy)]
pub struct Lanes {
    pub bits: u32,
    pub word: u32,
}

impl Lanes {
    /// None for an access that reaches beyond one register.
    pub fn of(access: &Access, value: u64) -> Option<Lanes> {
        let lane = access.address & 3;
        if lane + u32::from(access.width) > 4 {
            return None;
        }
        let bits = u32::MAX >> (32 - 8 * u32::from(access.width));
        Some(Lanes { bits: bits << (8 * lane), word: (value as u32 & bits) << (8 * lane) })
    }

    /// Whether all of these bits are in the lanes.
    fn has(&self, bits: u32) -> bool {
        self.bits & bits == bits
    }

    pub fn is_set(&self, bit: u32) -> bool {
        self.word & bit != 0
    }

    /// A lock bit; `until_reset` where it is known to be closed so long.
    fn lock(&self, (bit, name): (u32, &str), until_reset: bool) -> Option<String> {
        let until = if until_reset { " until a reset" } else { "" };
        self.is_set(bit).then(|| format!("{name}{until}"))
    }
}

fn joined(words: Vec<String>, comma: &str) -> Option<String> {
    (!words.is_empty()).then(|| words.join(comma))
}

/// ACR's bits that are about lines.
pub fn acr_words(acr: Lanes) -> Option<String> {
    joined(set(acr.word, &ACR_BITS).map(String::from).collect(), ", ")
}

/// What a write to ACR does to the lines: a side is emptied only where it was off
/// before.
pub fn lines_words(before: u32, written: Lanes) -> Option<String> {
    let mut words = Vec::new();
    for Side { name, on, empty } in [DATA, INSTRUCTION] {
        let was_on = before & on.0 != 0;
        if written.is_set(empty.0) {
            words.push(match was_on {
                true => format!("{} is not taken, since {} was 1", empty.1, on.1),
                false => format!("empties the {name} lines"),
            });
        }
        if written.is_set(on.0) {
            words.push(format!("{name} lines on"));
        } else if was_on && written.has(on.0) {
            words.push(format!("{name} lines off"));
        }
    }
    joined(words, "; ")
}

pub fn cr_words(cr: Lanes, until_reset: bool) -> Option<String> {
    let mut words = Vec::new();
    if cr.has(PSIZE) {
        words.push(format!("PSIZE {}", psize(cr.word)));
    }
    if cr.has(SNB) {
        words.push(format!("SNB {}", snb(cr.word)));
    }
    words.extend(set(cr.word, &CR_BITS).map(String::from));
    words.extend(cr.lock(LOCK, until_reset));
    joined(words, ", ")
}

pub fn sr_words(sr: Lanes) -> Option<String> {
    let busy = if sr.is_set(BSY) { "busy" } else { "idle" };
    let busy = sr.has(BSY).then_some(busy);
    joined(busy.into_iter().chain(set(sr.word, &FLAGS)).map(String::from).collect(), ", ")
}

/// What a write to SR is for: a 1 clears its flag.
pub fn cleared_words(written: Lanes) -> String {
    let flags: Vec<&str> = set(written.word, &FLAGS).collect();
    if flags.is_empty() {
        "clears nothing".into()
    } else {
        format!("clears {}", flags.join(", "))
    }
}

const USER: u32 = 0xEC;
const RDP: u32 = 0xFF << 8;
const NWRP: u32 = 0xFFF << 16;

/// OPTCR's bits that an option change takes.
pub const OPTIONS: u32 = USER | RDP | NWRP;

/// OPTCR's fields. Those with a bit in `pending` count only once an option change
/// has taken them.
pub fn optcr_words(optcr: Lanes, pending: u32, until_reset: bool) -> Option<String> {
    let field = |bits: u32, words: String| {
        let waits = if pending & bits != 0 { "pending " } else { "" };
        optcr.has(bits).then(|| format!("{waits}{words}"))
    };
    let start = optcr.is_set(OPTSTRT).then(|| "OPTSTRT".to_string());
    let bits = optcr.lock(OPTLOCK, until_reset).into_iter().chain(start).collect();
    let words = [
        field(RDP, rdp_words((optcr.word >> 8) as u8)),
        field(NWRP, nwrp_words((optcr.word >> 16) as u16)),
        field(USER, user_words(optcr.word as u8)),
        joined(bits, ", "),
    ];
    joined(words.into_iter().flatten().collect(), "; ")
}

/// Whether OPTCR has the RDP of level 0.
pub fn is_level_0(optcr: u32) -> bool {
    optcr & RDP == u32::from(RDP_LEVEL_0) << 8
}

pub const RDP_LEVEL_0: u8 = 0xAA;

pub fn rdp_words(rdp: u8) -> String {
    let level = match rdp {
        RDP_LEVEL_0 => "level 0",
        0xCC => "level 2, for good",
        _ => "level 1",
    };
    format!("RDP {rdp:02X}: {level}")
}

/// Bit i at 0 protects sector i.
pub fn nwrp_words(nwrp: u16) -> String {
    let sectors: Vec<usize> = (0..map::SECTORS).filter(|i| nwrp >> i & 1 == 0).collect();
    let protected = match sectors.as_slice() {
        [] => "no sector protected".into(),
        [one] => format!("sector {one} protected"),
        many => format!("sectors {} protected", runs(many)),
    };
    format!("nWRP {:03X}: {protected}", nwrp & 0xFFF)
}

/// Rising numbers, with neighbours as a range: 0 to 2, 5, 7.
fn runs(numbers: &[usize]) -> String {
    let mut runs: Vec<(usize, usize)> = Vec::new();
    for &n in numbers {
        match runs.last_mut() {
            Some((_, last)) if *last + 1 == n => *last = n,
            _ => runs.push((n, n)),
        }
    }
    let run = |&(first, last): &(usize, usize)| {
        if first == last {
            first.to_string()
        } else {
            format!("{first} to {last}")
        }
    };
    runs.iter().map(run).collect::<Vec<_>>().join(", ")
}

/// Bits 7 to 5 and 3, 2, which stand alike in USER and in OPTCR.
pub fn user_words(user: u8) -> String {
    let bor = ["BOR level 3", "BOR level 2", "BOR level 1", "BOR off"][usize::from(user >> 2 & 3)];
    let bits = [(1 << 5, "WDG_SW"), (1 << 6, "nRST_STOP"), (1 << 7, "nRST_STDBY")];
    std::iter::once(bor).chain(set(user.into(), &bits)).collect::<Vec<_>>().join(", ")
}

/// The option bytes that a read of option cells shows whole, in the order of
/// OPTCR's words; None where it shows none of them.
pub fn option_cells(offset: u32, width: u8, value: u64) -> Option<String> {
    let byte = |at: u32| {
        let inside = at >= offset && at < offset + u32::from(width);
        inside.then(|| (value >> (8 * (at - offset))) as u8)
    };
    let nwrp = byte(8).zip(byte(9)).map(|(low, high)| u16::from_le_bytes([low, high]));
    let words = [byte(1).map(rdp_words), nwrp.map(nwrp_words), byte(0).map(user_words)];
    joined(words.into_iter().flatten().collect(), "; ")
}

#[cfg(test)]
mod tests {
    use super::*;

    fn lanes(address: u32, width: u8, value: u64) -> Lanes {
        Lanes::of(&Access { who: 0, width, address }, value).expect("lanes")
    }

    #[test]
    fn cr_and_sr_by_their_bits() {
        let cr = |address, width, value| cr_words(lanes(address, width, value), false);
        let says = |words: &str| Some(words.to_string());
        assert_eq!(cr(map::CR, 4, 0x0101_021A), says("PSIZE 2, SNB 3, SER, STRT, EOPIE"));
        assert_eq!(cr(map::CR, 4, 0x8000_0000), says("PSIZE 0, SNB 0, LOCK"));
        assert_eq!(cr(map::CR, 4, 0x0200_037D), says("PSIZE 3, SNB 15, PG, MER, ERRIE"));
        assert_eq!(cr(map::CR, 1, 0x12), says("SNB 2, SER"));
        assert_eq!(cr(map::CR + 1, 1, 0x02), says("PSIZE 2"));
        assert_eq!(cr(map::CR + 2, 2, 0x8001), says("STRT, LOCK"));
        assert_eq!(cr(map::CR + 2, 1, 0), None);
        let until = cr_words(lanes(map::CR + 3, 1, 0x80), true);
        assert_eq!(until, says("LOCK until a reset"));
        assert_eq!(sr_words(lanes(map::SR, 4, 0x0001_0000)), says("busy"));
        assert_eq!(sr_words(lanes(map::SR, 4, 0x42)), says("idle, PGPERR, OPERR"));
        assert_eq!(sr_words(lanes(map::SR, 1, 0x11)), says("WRPERR, EOP"));
        assert_eq!(sr_words(lanes(map::SR, 1, 0)), None);
        assert_eq!(sr_words(lanes(map::SR + 2, 2, 1)), says("busy"));
        let all = "clears PGSERR, PGPERR, PGAERR, WRPERR, OPERR, EOP";
        assert_eq!(cleared_words(lanes(map::SR, 1, 0xF3)), all);
        assert_eq!(cleared_words(lanes(map::SR, 4, 0x0001_000C)), "clears nothing");
        assert_eq!(flag_name(0x20), "PGAERR");
    }

    #[test]
    fn acr_by_what_it_does_to_lines() {
        let not_taken = "DCRST is not taken, since DCEN was 1";
        // ACR before, and the second byte that is written.
        for (before, written, says) in [
            (0x0000, 0x04, "data lines on".to_string()),
            (0x0000, 0x06, "data lines on; instruction lines on".to_string()),
            (0x0000, 0x10, "empties the data lines".to_string()),
            (0x0000, 0x18, "empties the data lines; empties the instruction lines".to_string()),
            (0x0000, 0x0A, "empties the instruction lines; instruction lines on".to_string()),
            (0x0600, 0x00, "data lines off; instruction lines off".to_string()),
            (0x0600, 0x04, "data lines on; instruction lines off".to_string()),
            (0x0400, 0x10, format!("{not_taken}; data lines off")),
            (0x0400, 0x1C, format!("{not_taken}; data lines on; empties the instruction lines")),
        ] {
            for lanes in [lanes(map::ACR + 1, 1, written), lanes(map::ACR, 4, written << 8)] {
                assert_eq!(lines_words(before, lanes), Some(says.clone()), "{written:X}");
            }
        }
        assert_eq!(lines_words(0x0600, lanes(map::ACR, 1, 0x07)), None);
        assert_eq!(lines_words(0x0000, lanes(map::ACR, 4, 0x0107)), None);
        let read = acr_words(lanes(map::ACR, 4, 0x1F07));
        assert_eq!(read.as_deref(), Some("DCEN, ICEN, DCRST, ICRST"));
        assert_eq!(acr_words(lanes(map::ACR + 1, 1, 0x02)).as_deref(), Some("ICEN"));
        assert_eq!(acr_words(lanes(map::ACR, 4, 0x0107)), None);
    }

    #[test]
    fn optcr_as_level_sectors_and_user() {
        let optcr = |address, width, value| optcr_words(lanes(address, width, value), 0, false);
        assert_eq!(
            optcr(map::OPTCR, 4, 0x0FFF_AAED).as_deref(),
            Some(
                "RDP AA: level 0; nWRP FFF: no sector protected; \
                 BOR off, WDG_SW, nRST_STOP, nRST_STDBY; OPTLOCK"
            )
        );
        assert_eq!(
            optcr_words(lanes(map::OPTCR, 4, 0x0F58_CC00), 0x0100_0080, false).as_deref(),
            Some(
                "RDP CC: level 2, for good; pending nWRP F58: sectors 0 to 2, 5, 7 protected; \
                 pending BOR level 3"
            )
        );
        assert_eq!(optcr(map::OPTCR + 1, 1, 0x55).as_deref(), Some("RDP 55: level 1"));
        let sectors = optcr(map::OPTCR + 2, 2, 0x0FFE);
        assert_eq!(sectors.as_deref(), Some("nWRP FFE: sector 0 protected"));
        assert_eq!(optcr(map::OPTCR + 2, 1, 0xFE), None);
        assert_eq!(optcr(map::OPTCR, 1, 0x0E).as_deref(), Some("BOR off; OPTSTRT"));
        assert_eq!(user_words(0x44), "BOR level 2, nRST_STOP");
        assert_eq!(user_words(0x28), "BOR level 1, WDG_SW");
        assert_eq!(nwrp_words(0xFFFE), "nWRP FFE: sector 0 protected");
        assert_eq!(rdp_words(0x00), "RDP 00: level 1");
    }

    #[test]
    fn option_cells_by_the_bytes_that_are_read() {
        assert_eq!(option_cells(1, 1, 0xCC).as_deref(), Some("RDP CC: level 2, for good"));
        assert_eq!(
            option_cells(0, 4, 0xFFFF_55FF).as_deref(),
            Some("RDP 55: level 1; BOR off, WDG_SW, nRST_STOP, nRST_STDBY")
        );
        assert_eq!(option_cells(8, 2, 0xFFFB).as_deref(), Some("nWRP FFB: sector 2 protected"));
        assert_eq!(option_cells(8, 1, 0xFB), None);
        assert_eq!(option_cells(4, 4, 0xFFFF_FFFF), None);
    }
}
