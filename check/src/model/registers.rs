//! The six registers: offsets, bits of PM0059 2.8, and lanes.

pub const ACR: usize = 0x00;
pub const KEYR: usize = 0x04;
pub const OPTKEYR: usize = 0x08;
pub const SR: usize = 0x0C;
pub const CR: usize = 0x10;
pub const OPTCR: usize = 0x14;

pub const ACR_DCRST: u32 = 1 << 12;
pub const ACR_ICRST: u32 = 1 << 11;
pub const ACR_DCEN: u32 = 1 << 10;
pub const ACR_ICEN: u32 = 1 << 9;
pub const ACR_PRFTEN: u32 = 1 << 8;
pub const ACR_LATENCY: u32 = 0x7;
pub const ACR_FIELDS: u32 = ACR_DCRST | ACR_ICRST | ACR_DCEN | ACR_ICEN | ACR_PRFTEN | ACR_LATENCY;

pub const SR_BSY: u32 = 1 << 16;
pub const SR_PGSERR: u32 = 1 << 7;
pub const SR_PGPERR: u32 = 1 << 6;
pub const SR_PGAERR: u32 = 1 << 5;
pub const SR_WRPERR: u32 = 1 << 4;
pub const SR_OPERR: u32 = 1 << 1;
pub const SR_EOP: u32 = 1 << 0;

pub const CR_LOCK: u32 = 1 << 31;
pub const CR_ERRIE: u32 = 1 << 25;
pub const CR_EOPIE: u32 = 1 << 24;
pub const CR_STRT: u32 = 1 << 16;
pub const CR_PSIZE_SHIFT: u32 = 8;
pub const CR_PSIZE: u32 = 0x3 << CR_PSIZE_SHIFT;
pub const CR_SNB_SHIFT: u32 = 3;
pub const CR_SNB: u32 = 0xF << CR_SNB_SHIFT;
pub const CR_MER: u32 = 1 << 2;
pub const CR_SER: u32 = 1 << 1;
pub const CR_PG: u32 = 1 << 0;
/// What a write to CR stores; LOCK and STRT are not stored but follow from
/// the lock and from what is running.
pub const CR_FIELDS: u32 = CR_ERRIE | CR_EOPIE | CR_PSIZE | CR_SNB | CR_MER | CR_SER | CR_PG;

pub const OPTCR_NWRP_SHIFT: u32 = 16;
pub const OPTCR_NWRP: u32 = 0xFFF << OPTCR_NWRP_SHIFT;
pub const OPTCR_RDP_SHIFT: u32 = 8;
pub const OPTCR_RDP: u32 = 0xFF << OPTCR_RDP_SHIFT;
/// Bits 7 to 5 and BOR_LEV, at the same places as in the USER cell.
pub const OPTCR_USER: u32 = 0xEC;
pub const OPTCR_OPTSTRT: u32 = 1 << 1;
pub const OPTCR_OPTLOCK: u32 = 1 << 0;
/// As for CR: OPTLOCK and OPTSTRT are not stored.
pub const OPTCR_FIELDS: u32 = OPTCR_NWRP | OPTCR_RDP | OPTCR_USER;

/// The bits of a register that an access touches.
#[derive(Clone, Copy)]
pub struct Lanes {
    shift: u32,
    mask: u32,
}

impl Lanes {
    /// For aligned accesses of at most four bytes.
    pub fn of(offset: usize, width: u32) -> Lanes {
        let shift = 8 * (offset as u32 % 4);
        let mask = (u32::MAX >> (32 - 8 * width)) << shift;
        Lanes { shift, mask }
    }

    pub fn read(self, register: u32) -> u64 {
        ((register & self.mask) >> self.shift).into()
    }

    /// The value in its lanes, with 0 in the others.
    pub fn alone(self, value: u64) -> u32 {
        (value as u32) << self.shift
    }

    /// The value in its lanes, with the register's own bits in the others.
    pub fn over(self, register: u32, value: u64) -> u32 {
        register & !self.mask | self.alone(value)
    }
}
