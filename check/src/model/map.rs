//! The map: areas, sectors of main flash, rows, blocks of OTP, option cells,
//! backup SRAM.

pub const MAIN: u32 = 0x0800_0000;
pub const SYSTEM: u32 = 0x1FFF_0000;
pub const SYSTEM_LEN: usize = 0x7800;
pub const OTP: u32 = 0x1FFF_7800;
pub const OTP_LEN: usize = 528;
pub const OPTIONS: u32 = 0x1FFF_C000;
pub const OPTIONS_LEN: usize = 16;
pub const REGISTERS: u32 = 0x4002_3C00;
pub const REGISTERS_LEN: usize = 0x18;
pub const SRAM: u32 = 0x4002_4000;
pub const SRAM_LEN: usize = 4_096;

/// Option cells that are used; nWRP takes two, the low byte first.
pub const USER: usize = 0;
pub const RDP: usize = 1;
pub const NWRP: usize = 8;

pub const BLOCK_LEN: usize = 32;
/// The lock bytes of OTP follow its sixteen blocks.
pub const LOCK_BYTES: usize = 16 * BLOCK_LEN;

pub const SECTORS_MAX: usize = 12;

/// Where each sector starts in main flash; the last entry is where sector 11
/// ends.
const SECTOR_START: [usize; SECTORS_MAX + 1] = [
    0x00000, 0x04000, 0x08000, 0x0C000, 0x10000, 0x20000, 0x40000, 0x60000, 0x80000, 0xA0000,
    0xC0000, 0xE0000, 0x10_0000,
];

/// The length of main flash on a part with this many sectors.
pub fn main_len(sectors: usize) -> usize {
    SECTOR_START[sectors]
}

/// How many sectors a lent main flash of this length has.
pub fn sectors_of(main_len: usize) -> Option<usize> {
    (1..=SECTORS_MAX).find(|&sectors| SECTOR_START[sectors] == main_len)
}

pub fn sector_range(sector: usize) -> std::ops::Range<usize> {
    SECTOR_START[sector]..SECTOR_START[sector + 1]
}

/// The sector that holds a byte of main flash.
pub fn sector_of(offset: usize) -> usize {
    match offset {
        0..0x1_0000 => offset >> 14,
        0x1_0000..0x2_0000 => 4,
        _ => 4 + (offset >> 17),
    }
}

/// Whether the bytes lie in two rows of 16.
pub fn crosses_row(address: u32, width: u32) -> bool {
    address % 16 + width > 16
}

#[derive(Clone, Copy, PartialEq, Eq, Debug)]
pub enum Area {
    Main,
    System,
    Otp,
    Options,
    Registers,
    Sram,
}

/// The area of an access's first byte, and where in the area that byte is.
#[derive(Clone, Copy)]
pub struct Place {
    pub area: Area,
    pub offset: usize,
}

/// None when a byte lies outside the map. Only system memory has a neighbour,
/// OTP, which is longer than an access: from there one may run on.
pub fn place(address: u32, width: u32, main_len: usize) -> Option<Place> {
    let within = |area, start: u32, len: usize| {
        let offset = address.wrapping_sub(start) as usize;
        (offset < len).then_some((Place { area, offset }, len))
    };
    let (place, len) = within(Area::Main, MAIN, main_len)
        .or_else(|| within(Area::Registers, REGISTERS, REGISTERS_LEN))
        .or_else(|| within(Area::Sram, SRAM, SRAM_LEN))
        .or_else(|| within(Area::Otp, OTP, OTP_LEN))
        .or_else(|| within(Area::System, SYSTEM, SYSTEM_LEN))
        .or_else(|| within(Area::Options, OPTIONS, OPTIONS_LEN))?;
    let end = place.offset + width as usize;
    (end <= len || place.area == Area::System).then_some(place)
}
