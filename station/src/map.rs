//! Where an address lies, in the names of PM0059: sectors, OTP blocks, option
//! cells, registers; and the backup SRAM.

use crate::job::Access;
use crate::number;

pub const MAIN: u32 = 0x0800_0000;
pub const SYSTEM: u32 = 0x1FFF_0000;
pub const OTP: u32 = 0x1FFF_7800;
pub const OTP_LOCKS: u32 = 0x1FFF_7A00;
pub const OTP_END: u32 = 0x1FFF_7A10;
pub const OPTIONS: u32 = 0x1FFF_C000;
pub const OPTIONS_END: u32 = 0x1FFF_C010;
pub const REGISTERS: u32 = 0x4002_3C00;
const SRAM: u32 = 0x4002_4000;
const SRAM_END: u32 = 0x4002_5000;

pub const ACR: u32 = REGISTERS;
pub const KEYR: u32 = REGISTERS + 0x04;
pub const OPTKEYR: u32 = REGISTERS + 0x08;
pub const SR: u32 = REGISTERS + 0x0C;
pub const CR: u32 = REGISTERS + 0x10;
pub const OPTCR: u32 = REGISTERS + 0x14;

const NAMES: [(&str, u32); 6] =
    [("ACR", ACR), ("KEYR", KEYR), ("OPTKEYR", OPTKEYR), ("SR", SR), ("CR", CR), ("OPTCR", OPTCR)];

/// The sectors of the largest part.
pub const SECTORS: usize = 12;

pub fn register_named(name: &str) -> Option<u32> {
    NAMES.iter().find(|(known, _)| *known == name).map(|(_, address)| *address)
}

/// All of them: ACR, KEYR, OPTKEYR, SR, CR or OPTCR.
pub fn register_names() -> String {
    let names: Vec<&str> = NAMES.iter().map(|(name, _)| *name).collect();
    format!("{} or {}", names[..names.len() - 1].join(", "), names[names.len() - 1])
}

/// The register that a byte belongs to, as its address.
pub fn register_at(address: u32) -> Option<u32> {
    let register = address & !3;
    NAMES.iter().any(|(_, known)| *known == register).then_some(register)
}

/// A register as a text has it, as CR, or CR+2 for a byte that is not its
/// first.
pub fn register_name(address: u32) -> Option<String> {
    let (name, register) = NAMES.iter().find(|(_, known)| *known == address & !3)?;
    Some(match address - register {
        0 => name.to_string(),
        lane => format!("{name}+{lane}"),
    })
}

/// The offset in main flash at which a sector starts; that of sector n is the
/// length of a part with n sectors.
pub fn sector_start(sector: usize) -> usize {
    if sector <= 4 {
        0x4000 * sector
    } else {
        0x2_0000 * (sector - 4)
    }
}

/// The sector of an offset in main flash, on the largest part.
pub fn sector_of(offset: usize) -> Option<usize> {
    (0..SECTORS).find(|sector| offset < sector_start(sector + 1))
}

/// What an access touches, as far as its bytes lie in one area or in system
/// memory and OTP, which are neighbours.
#[derive(Clone, Copy, Debug, PartialEq, Eq)]
pub enum Area {
    /// The first and the last sector.
    Main(usize, usize),
    System,
    SystemAndOtp,
    /// The first and the last byte, as offsets.
    Otp(u32, u32),
    Options,
    Sram,
    /// The register of the first byte, as its address.
    Register(u32),
    /// A sector that only a larger part has.
    Absent(usize),
    Outside,
}

/// Whether a byte belongs to the backup SRAM.
pub fn is_sram(address: u32) -> bool {
    (SRAM..SRAM_END).contains(&address)
}

/// The area of an access on a part with main flash of that length.
pub fn area(main_length: usize, access: &Access) -> Area {
    let first = access.address;
    let Some(last) = first.checked_add(u32::from(access.width).saturating_sub(1)) else {
        return Area::Outside;
    };
    if first >= MAIN && first < SYSTEM {
        let (from, to) = ((first - MAIN) as usize, (last - MAIN) as usize);
        return match (sector_of(from), sector_of(to)) {
            (Some(from_sector), Some(to_sector)) if to < main_length => {
                Area::Main(from_sector, to_sector)
            }
            (Some(sector), _) if from >= main_length => Area::Absent(sector),
            _ => Area::Outside,
        };
    }
    if first >= SYSTEM && last < OTP {
        Area::System
    } else if first >= SYSTEM && first < OTP {
        Area::SystemAndOtp
    } else if first >= OTP && last < OTP_END {
        Area::Otp(first - OTP, last - OTP)
    } else if first >= OPTIONS && last < OPTIONS_END {
        Area::Options
    } else if is_sram(first) && is_sram(last) {
        Area::Sram
    } else if register_at(first).is_some() && register_at(last).is_some() {
        Area::Register(first & !3)
    } else {
        Area::Outside
    }
}

/// `sector 1`, or `sectors 1 to 2`.
fn range(name: &str, first: u64, last: u64) -> String {
    if first == last {
        format!("{name} {first}")
    } else {
        format!("{name}s {first} to {last}")
    }
}

/// Blocks of 32 bytes, then 16 lock bytes.
fn otp_words(first: u32, last: u32) -> String {
    let locks = OTP_LOCKS - OTP;
    let block = |offset: u32| u64::from(offset / 32);
    let lock = |offset: u32| u64::from(offset.saturating_sub(locks));
    if last < locks {
        range("block", block(first), block(last))
    } else if first < locks {
        format!("{} and {}", range("block", block(first), 15), range("lock byte", 0, lock(last)))
    } else {
        range("lock byte", lock(first), lock(last))
    }
}

fn area_words(area: Area) -> String {
    match area {
        Area::Main(first, last) => {
            format!("main flash, {}", range("sector", first as u64, last as u64))
        }
        Area::System => "system memory".into(),
        Area::SystemAndOtp => "system memory and OTP, block 0".into(),
        Area::Otp(first, last) => format!("OTP, {}", otp_words(first, last)),
        Area::Options => "option cells".into(),
        Area::Sram => "backup SRAM".into(),
        Area::Register(_) => "registers".into(),
        Area::Absent(sector) => format!("main flash, sector {sector}, not in this part"),
        Area::Outside => "outside the map".into(),
    }
}

/// The place of an access: a register by its name behind `joint`, cells by the
/// address and what lies there.
pub fn place_words(main_length: usize, access: &Access, joint: &str) -> String {
    let area = area(main_length, access);
    match (area, register_name(access.address)) {
        (Area::Register(_), Some(name)) => format!(" {joint} {name}"),
        _ => {
            format!(" at {} ({})", number::hexadecimal(4, access.address.into()), area_words(area))
        }
    }
}

#[cfg(test)]
mod tests {
    use super::*;

    fn at(address: u32, width: u8) -> Area {
        area(65_536, &Access { who: 0, width, address })
    }

    #[test]
    fn sectors_have_the_manuals_edges() {
        let edges = [
            (0x0800_3FFF, 0),
            (0x0800_4000, 1),
            (0x0801_0000, 4),
            (0x0801_FFFF, 4),
            (0x0802_0000, 5),
            (0x080E_0000, 11),
            (0x080F_FFFF, 11),
        ];
        for (address, sector) in edges {
            assert_eq!(sector_of((address - MAIN) as usize), Some(sector), "{address:X}");
        }
        assert_eq!(sector_of(0x10_0000), None);
        assert_eq!(sector_start(SECTORS), 1_048_576);
    }

    #[test]
    fn areas_have_their_edges() {
        assert_eq!(at(0x0800_FFFC, 4), Area::Main(3, 3));
        assert_eq!(at(0x0800_3FFE, 4), Area::Main(0, 1));
        assert_eq!(at(0x0800_FFFE, 4), Area::Outside);
        assert_eq!(at(0x0801_0000, 1), Area::Absent(4));
        assert_eq!(at(0x07FF_FFFE, 4), Area::Outside);
        assert_eq!(at(0x1FFF_77FC, 4), Area::System);
        assert_eq!(at(0x1FFF_77FC, 8), Area::SystemAndOtp);
        assert_eq!(at(0x1FFF_7A0F, 1), Area::Otp(527, 527));
        assert_eq!(at(0x1FFF_7A0F, 2), Area::Outside);
        assert_eq!(at(0x1FFF_C00F, 1), Area::Options);
        assert_eq!(at(0x4002_3C14, 4), Area::Register(OPTCR));
        assert_eq!(at(0x4002_3C14, 8), Area::Outside);
        assert_eq!(at(0x4002_3FFF, 1), Area::Outside);
        assert_eq!(at(0x4002_3FFF, 2), Area::Outside);
        assert_eq!(at(0x4002_4000, 8), Area::Sram);
        assert_eq!(at(0x4002_4FFF, 1), Area::Sram);
        assert_eq!(at(0x4002_4FFD, 4), Area::Outside);
        assert_eq!(at(0x4002_5000, 1), Area::Outside);
        assert_eq!(at(0xFFFF_FFFC, 8), Area::Outside);
    }
}
