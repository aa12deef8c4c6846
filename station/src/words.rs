//! A call and its answer in words, with units. What is said of an answer comes
//! from the answer, from the call itself, and from answers before it.

use crate::fields::{self, Lanes};
use crate::job::{Access, Answer, Call};
use crate::map::{self, Area};
use crate::number::{counted, decimal, hexadecimal};

/// What the answers so far have said of the registers.
#[derive(Clone, Copy, Default)]
pub struct History {
    /// The locks that a wrong key has closed until a reset, each with the number
    /// of the call that wrote it.
    cr: Option<usize>,
    optcr: Option<usize>,
    /// OPTCR's bits that no option change has taken.
    pending: u32,
    /// OPTCR as the option cells have it, where it is known.
    taken: Option<u32>,
    /// ACR as it was written since the last reset.
    acr: u32,
}

impl History {
    /// The lock that a call is about: that of CR or of OPTCR.
    fn lock(&mut self, call: &Call) -> Option<(&'static str, &mut Option<usize>)> {
        match map::register_at(call.access()?.address)? {
            map::KEYR | map::CR => Some(("CR", &mut self.cr)),
            map::OPTKEYR | map::OPTCR => Some(("OPTCR", &mut self.optcr)),
            _ => None,
        }
    }

    /// What the call with that number and its answer add.
    pub fn after(&mut self, number: usize, call: &Call, answer: &Answer) {
        match (call, answer.code) {
            (Call::Reset { .. }, 0) => *self = History::default(),
            (Call::Write(access, value), 0 | 17) => {
                if let Some(written) = lanes(map::OPTCR, access, *value) {
                    self.options_written(written, answer);
                }
                if let Some(written) = lanes(map::ACR, access, *value) {
                    self.acr = self.acr & !written.bits | written.word;
                }
            }
            (Call::Read(access), 0) => {
                let read = lanes(map::OPTCR, access, answer.value);
                let whole = read.filter(|read| read.bits == u32::MAX);
                // While a change runs, OPTCR has what is not in the cells yet.
                let still = whole.filter(|read| !read.is_set(fields::OPTSTRT));
                if let Some(read) = still.filter(|_| self.pending == 0) {
                    self.taken = Some(read.word);
                }
            }
            (_, 14) => {
                if let Some((_, lock)) = self.lock(call) {
                    lock.get_or_insert(number);
                }
            }
            _ => {}
        }
    }

    fn options_written(&mut self, written: Lanes, answer: &Answer) {
        if written.is_set(fields::OPTSTRT) && answer.is_done() {
            // Where it may be a regression, which takes RDP alone, what it leaves is
            // not known.
            let opens = fields::is_level_0(written.word);
            let open = self.taken.is_some_and(fields::is_level_0);
            let taken = written.bits == u32::MAX && (open || !opens);
            (self.pending, self.taken) = (0, taken.then_some(written.word));
        } else {
            self.pending = self.pending & !written.bits | self.pending_in(written);
        }
    }

    /// The bits of a write that differ from what an option change has taken.
    fn pending_in(&self, written: Lanes) -> u32 {
        let taken = self.taken.unwrap_or(!written.word);
        (taken ^ written.word) & written.bits & fields::OPTIONS
    }
}

/// The lanes of an access to that register.
fn lanes(register: u32, access: &Access, value: u64) -> Option<Lanes> {
    let there = map::register_at(access.address) == Some(register);
    Lanes::of(access, value).filter(|_| there)
}

/// A call on a part with main flash of that length; `history` is of the calls
/// before it.
pub fn call_words(main_length: usize, call: &Call, history: History) -> String {
    match call {
        Call::Reset { boot } => {
            let from = ["flash", "system memory", "RAM"][*boot as usize % 3];
            format!("reset, boot from {from}")
        }
        Call::On => "debugger on".into(),
        Call::Off => "debugger off".into(),
        Call::Read(access) => {
            let place = map::place_words(main_length, access, "of");
            format!("{} reads {}{place}", who(access), bytes(access))
        }
        Call::Write(access, value) => {
            let value_words = hexadecimal(access.width, *value);
            let place = map::place_words(main_length, access, "to");
            let written = written_words(access, *value, history);
            format!("{} writes {} {value_words}{place}{written}", who(access), bytes(access))
        }
        Call::Fetch { .. } => {
            let place = call.access().map(|access| map::place_words(main_length, &access, "of"));
            format!("CPU fetches 4 bytes{}", place.unwrap_or_default())
        }
        Call::Pass { us } => format!("pass {} us", decimal((*us).into())),
        Call::Wait { ms } => format!("wait at most {} ms", decimal((*ms).into())),
    }
}

fn who(access: &Access) -> &'static str {
    if access.who == 0 {
        "CPU"
    } else {
        "debugger"
    }
}

fn bytes(access: &Access) -> String {
    counted(access.width.into(), "byte")
}

fn in_brackets(words: Option<String>) -> String {
    words.map(|words| format!(" ({words})")).unwrap_or_default()
}

/// The fields of what is written to CR and OPTCR, the flags that a write to SR
/// clears, and what a write to ACR does to the lines.
fn written_words(access: &Access, value: u64, history: History) -> String {
    let Some(written) = Lanes::of(access, value) else {
        return String::new();
    };
    in_brackets(match map::register_at(access.address) {
        Some(map::ACR) => fields::lines_words(history.acr, written),
        Some(map::CR) => fields::cr_words(written, false),
        Some(map::OPTCR) if written.is_set(fields::OPTSTRT) => {
            fields::optcr_words(written, 0, false)
        }
        Some(map::OPTCR) => fields::optcr_words(written, history.pending_in(written), false),
        Some(map::SR) => Some(fields::cleared_words(written)),
        _ => None,
    })
}

/// The answer of a call; `history` is of the calls before it.
pub fn answer_words(main_length: usize, call: &Call, answer: &Answer, history: History) -> String {
    match answer.code {
        0 => format!("done{}", value_words(call, answer.value, history)),
        17 => reason(main_length, call, answer, history),
        code => format!("refused {code}: {}", reason(main_length, call, answer, history)),
    }
}

/// Why a call is refused.
pub fn reason(main_length: usize, call: &Call, answer: &Answer, history: History) -> String {
    if answer.code != 17 {
        return refusal_words(call, answer, history);
    }
    let flag = fields::flag_name(answer.value);
    match wrperr_cause(main_length, call).filter(|_| flag == "WRPERR") {
        Some(cause) => format!("flag WRPERR: {cause}"),
        None => format!("flag {flag}"),
    }
}

/// The value of a read or a fetch is its bytes, a wait's the time that passed.
fn value_words(call: &Call, value: u64, history: History) -> String {
    match call {
        Call::Read(access) => {
            let fields = in_brackets(read_words(call, access, value, history));
            format!(" {}{fields}", hexadecimal(access.width, value))
        }
        Call::Fetch { .. } => format!(" {}", hexadecimal(4, value)),
        Call::Wait { .. } => passed(value),
        _ => String::new(),
    }
}

fn read_words(call: &Call, access: &Access, value: u64, mut history: History) -> Option<String> {
    if (map::OPTIONS..map::OPTIONS_END).contains(&access.address) {
        return fields::option_cells(access.address - map::OPTIONS, access.width, value);
    }
    let read = Lanes::of(access, value)?;
    let closed = matches!(history.lock(call), Some((_, Some(_))));
    match map::register_at(access.address)? {
        map::ACR => fields::acr_words(read),
        map::CR => fields::cr_words(read, closed),
        map::SR => fields::sr_words(read),
        map::OPTCR => fields::optcr_words(read, history.pending, closed),
        _ => None,
    }
}

fn passed(us: u64) -> String {
    format!(", {} us passed", decimal(us))
}

fn refusal_words(call: &Call, answer: &Answer, mut history: History) -> String {
    let lock = history.lock(call).map(|(name, closed)| (name, *closed));
    match (answer.code, lock) {
        (12 | 14, Some((name, Some(number)))) => {
            format!("{name} is locked until a reset (wrong key in call {})", decimal(number as u64))
        }
        (14, Some((name, None))) => format!("wrong key, {name} is locked until a reset"),
        (7, _) if matches!(call, Call::Fetch { .. }) => "outside main flash".into(),
        (13, _) if matches!(call, Call::Fetch { .. }) => "closed fetch".into(),
        (13, _) if matches!(call, Call::Write(..)) => "closed write".into(),
        (18, _) => format!("wait expired{}", passed(answer.value)),
        (code, _) => refusal_name(code).into(),
    }
}

fn refusal_name(code: u8) -> &'static str {
    match code {
        7 => "outside the map",
        8 => "time above its limit",
        9 => "register access not aligned, of 8 bytes, or of a key register not by word",
        10 => "no power",
        11 => "stalled, the part is busy",
        12 => "written while locked",
        13 => "closed read",
        15 => "debugger not connected",
        16 => "shut at level 2",
        21 => {
            "the target of the running operation is longer than the scrap; \
             a wait before the reset lets it finish"
        }
        _ => "not a refusal of a call",
    }
}

const MARK: &str = "the mark stands at level 1 or 2";

/// What WRPERR can come from, as far as the call shows it.
fn wrperr_cause(main_length: usize, call: &Call) -> Option<String> {
    let Call::Write(access, value) = call else {
        return None;
    };
    Some(match map::area(main_length, access) {
        Area::System | Area::SystemAndOtp => "system memory can't be programmed".into(),
        Area::Options => "option cells are changed through OPTCR".into(),
        Area::Main(first, _) => format!("sector {first} is protected, or {MARK}"),
        Area::Otp(first, _) if first < map::OTP_LOCKS - map::OTP => {
            format!("block {} is locked, or {MARK}", first / 32)
        }
        Area::Otp(..) => MARK.into(),
        Area::Register(map::CR) if (access.address, access.width) == (map::CR, 4) => {
            erase_cause(main_length, *value as u32)
        }
        Area::Register(map::CR) => {
            format!(
                "SER and MER together, a sector that is protected or not in this part, or {MARK}"
            )
        }
        Area::Register(map::OPTCR) => "level 2 takes no option change".into(),
        _ => return None,
    })
}

fn erase_cause(main_length: usize, cr: u32) -> String {
    let sector = fields::snb(cr);
    match (cr & fields::SER != 0, cr & fields::MER != 0) {
        (true, true) => "SER and MER together".into(),
        (true, false) if sector >= map::SECTORS || map::sector_start(sector) >= main_length => {
            format!("this part has no sector {sector}")
        }
        (true, false) => format!("sector {sector} is protected, or {MARK}"),
        _ => format!("a sector is protected, or {MARK}"),
    }
}
