//! The rows of jobs that every run must count.

pub type Group = (&'static str, &'static [&'static str]);

/// By result.
pub const JOB: Group = (
    "jobs",
    &[
        "done",
        "refused 1",
        "refused 2",
        "refused 3",
        "refused 4",
        "refused 5",
        "refused 6",
    ],
);

/// Jobs with several kinds of damage show the order 1, 2, 3, 4, 6, 5.
pub const PAIRS: [(u32, u32); 15] = [
    (1, 2),
    (1, 3),
    (1, 4),
    (1, 6),
    (1, 5),
    (2, 3),
    (2, 4),
    (2, 6),
    (2, 5),
    (3, 4),
    (3, 6),
    (3, 5),
    (4, 6),
    (4, 5),
    (6, 5),
];
pub const PAIR: Group = (
    "jobs refused with one number and damaged for another too",
    &[
        "1 before 2",
        "1 before 3",
        "1 before 4",
        "1 before 6",
        "1 before 5",
        "2 before 3",
        "2 before 4",
        "2 before 6",
        "2 before 5",
        "3 before 4",
        "3 before 6",
        "3 before 5",
        "4 before 6",
        "4 before 5",
        "6 before 5",
    ],
);

pub const BUFFER: Group = (
    "refused 1, by the length that is wrong",
    &["main flash", "OTP", "option cells", "SRAM", "timings"],
);
pub const TIMING: Group = ("refused 2", &["timing of 0", "timing above 60,000,000"]);
pub const HEAD: Group = (
    "refused 3",
    &[
        "fewer than 5 bytes",
        "mark",
        "low byte of version",
        "high byte of version",
    ],
);
pub const LENGTH: Group = (
    "refused 4",
    &[
        "5 or 6 bytes",
        "count 0 with bytes behind the head",
        "count above 2,000",
        "too short",
        "too long",
    ],
);

/// A job of count 0 and of the length of a head, by result.
pub const NO_CALLS: Group = (
    "jobs of no calls",
    &[
        "done with an answer buffer of 0 bytes",
        "done with a longer answer buffer",
        "refused 1",
        "refused 2",
        "refused 3",
    ],
);

/// By kind of call; an address or a time is never malformed.
pub const MALFORMED: [Group; 8] = [
    (
        "refused 5, reset",
        &["fourth byte", "who", "width", "value", "boot"],
    ),
    (
        "refused 5, on",
        &["fourth byte", "who", "width", "value", "number"],
    ),
    (
        "refused 5, off",
        &["fourth byte", "who", "width", "value", "number"],
    ),
    ("refused 5, read", &["fourth byte", "who", "width", "value"]),
    (
        "refused 5, write",
        &["fourth byte", "who", "width", "value"],
    ),
    ("refused 5, pass", &["fourth byte", "who", "width", "value"]),
    ("refused 5, wait", &["fourth byte", "who", "width", "value"]),
    (
        "refused 5, fetch",
        &["fourth byte", "who", "width", "value"],
    ),
];
pub const KIND: Group = ("refused 5", &["kind above 7"]);

/// Index 0 is n = 1.
pub const SECTORS: Group = (
    "sound jobs by number of sectors",
    &[
        "1", "2", "3", "4", "5", "6", "7", "8", "9", "10", "11", "12",
    ],
);

pub const LEVEL: Group = (
    "sound jobs by level at the start",
    &["level 0", "level 1", "level 2"],
);

/// By code. The numbers that are missing can't be the answer of a job's call:
/// 1 and 2 are settled for the whole job, since the lengths and timings stay
/// the same while it runs and an operation begins under the same length; 3, 4
/// and 6 are about the file; 5 refuses the whole job; 19 needs a busy part with
/// no time left, but an operation of a job has at least one microsecond and ends
/// with its last one; and 20 is the writer's.
pub const CODES: [u8; 14] = [0, 7, 8, 9, 10, 11, 12, 13, 14, 15, 16, 17, 18, 21];
pub const CODE: Group = (
    "calls by answer",
    &[
        "0 done",
        "7 outside the map",
        "8 time above its limit",
        "9 register access",
        "10 no power",
        "11 stalled",
        "12 locked",
        "13 closed",
        "14 wrong key",
        "15 debugger not connected",
        "16 level 2",
        "17 flag raised",
        "18 wait expired",
        "21 scrap too short",
    ],
);

/// Each flag without and with OPERR, from bit 7 of SR down.
pub const FLAG: Group = (
    "flags raised",
    &[
        "PGSERR",
        "PGSERR and OPERR",
        "PGPERR",
        "PGPERR and OPERR",
        "PGAERR",
        "PGAERR and OPERR",
        "WRPERR",
        "WRPERR and OPERR",
    ],
);

pub const PGSERR_FROM_CELLS: &str = "PGSERR by a write to cells";
pub const PGSERR_FROM_CR: &str = "PGSERR by STRT with neither MER nor SER";
pub const PGSERR: Group = ("causes of PGSERR", &[PGSERR_FROM_CELLS, PGSERR_FROM_CR]);

/// Counted where one cause stands alone.
pub const WRPERR: Group = (
    "causes of WRPERR, each alone",
    &[
        "program: system memory",
        "program: option cells",
        "program: protected sector",
        "program: locked block",
        "program: mark at level 1",
        "program: mark at level 2",
        "erase: MER and SER",
        "erase: SNB not below n",
        "erase: protected sector",
        "erase: mass erase with a protected sector",
        "erase: mark at level 1",
        "erase: mark at level 2",
        "option change at level 2",
    ],
);

pub const OPERATIONS: &[&str] = &[
    "program main, 1 byte",
    "program main, 2 bytes",
    "program main, 4 bytes",
    "program main, 8 bytes",
    "program OTP, 1 byte",
    "program OTP, 2 bytes",
    "program OTP, 4 bytes",
    "program OTP, 8 bytes",
    "program lock bytes",
    "erase 16 KiB",
    "erase 64 KiB",
    "erase 128 KiB",
    "mass erase",
    "option change",
    "change to level 1",
    "change to level 2",
    "regression",
];
pub const STARTED: Group = ("operations started", OPERATIONS);
pub const FINISHED: Group = ("operations finished", OPERATIONS);
pub const CUT: Group = ("operations cut by a reset", OPERATIONS);

pub const PSIZE: Group = (
    "operations started at each PSIZE",
    &[
        "program at 0",
        "program at 1",
        "program at 2",
        "program at 3",
        "erase at 0",
        "erase at 1",
        "erase at 2",
        "erase at 3",
        "option change at 0",
        "option change at 1",
        "option change at 2",
        "option change at 3",
    ],
);

pub const ENDING: Group = (
    "how operations end",
    &[
        "with EOP",
        "without EOP",
        "by a pass",
        "by a wait",
        "by a wait that just reaches",
        "regression with a protected sector",
        "regression with other nWRP pending",
        "regression with other USER pending",
        "debugger disconnected by level 2",
        "OTP block locked",
    ],
);

/// Four rows for each area.
pub const EDGE: Group = (
    "accesses at the edges of areas",
    &[
        "into main flash",
        "from the start of main flash",
        "to the end of main flash",
        "over the end of main flash",
        "into system memory",
        "from the start of system memory",
        "to the end of system memory",
        "over the end of system memory",
        "into OTP",
        "from the start of OTP",
        "to the end of OTP",
        "over the end of OTP",
        "into option cells",
        "from the start of option cells",
        "to the end of option cells",
        "over the end of option cells",
        "into registers",
        "from the start of registers",
        "to the end of registers",
        "over the end of registers",
        "into SRAM",
        "from the start of SRAM",
        "to the end of SRAM",
        "over the end of SRAM",
    ],
);

pub const READ: Group = (
    "reads done",
    &[
        "main, clean, level 0",
        "main, clean, level 1",
        "main, clean, level 2",
        "OTP, clean, level 0",
        "OTP, clean, level 1",
        "OTP, clean, level 2",
        "main with the mark at level 0",
        "OTP with the mark at level 0",
        "main by a debugger",
        "system memory",
        "system memory and OTP",
        "option cells",
        "option cells with the mark at level 1",
        "cells, unaligned",
        "cells, 8 bytes",
        "register by a debugger",
    ],
);

pub const CLOSED: Group = (
    "reads closed",
    &[
        "main at level 1 to a debugger",
        "main at level 1 to the CPU beside a debugger",
        "main at level 1 to the CPU after a debugger",
        "main at level 1 to the CPU after another boot",
        "main at level 2",
        "OTP at level 1",
        "OTP at level 2",
        "system memory and OTP",
        "option cells at level 2",
    ],
);

/// First for KEYR, then for OPTKEYR.
pub const LOCK: [Group; 2] = [("lock of CR", LOCK_EVENTS), ("lock of OPTCR", LOCK_EVENTS)];
const LOCK_EVENTS: &[&str] = &[
    "opened",
    "opened again after a write closed it",
    "opened while busy",
    "wrong first word",
    "wrong second word",
    "word once open",
    "word after a wrong one",
    "wrong word while busy",
    "closed by a write",
    "closed by a write that starts",
    "closed by a write that raises a flag",
];

/// In the order ACR, SR, CR, OPTCR, each by byte and half-word.
pub const LANES: Group = (
    "registers written by lanes",
    &[
        "ACR by byte",
        "ACR by half-word",
        "SR by byte",
        "SR by half-word",
        "CR by byte",
        "CR by half-word",
        "OPTCR by byte",
        "OPTCR by half-word",
        "STRT starts by byte",
        "OPTSTRT starts by byte",
    ],
);

/// Where in its word a register is read and written.
pub const READ_AT: Group = ("registers read at each offset", OFFSETS);
pub const WRITTEN_AT: Group = ("registers written at each offset", OFFSETS);

const OFFSETS: &[&str] = &[
    "byte at 0",
    "byte at 1",
    "byte at 2",
    "byte at 3",
    "half-word at 0",
    "half-word at 2",
    "word",
];

pub const REFUSED_9: Group = (
    "causes of 9",
    &[
        "half-word at 1",
        "half-word at 3",
        "word at 1",
        "word at 2",
        "word at 3",
        "8 bytes",
        "key register by byte",
        "key register by half-word",
    ],
);

pub const REGISTER: Group = (
    "register rules",
    &[
        "DCRST held by DCEN",
        "ICRST held by ICEN",
        "SR flag cleared",
        "SR flag kept, written in another lane",
        "SR flag cleared while busy",
        "OPTCR written at level 2 without OPTSTRT",
        "level pending in OPTCR, read done",
    ],
);

pub const TIME: Group = (
    "time",
    &[
        "pass of 0 while busy",
        "pass of 120,000,000",
        "pass that leaves 1 microsecond",
        "wait while idle",
        "wait of 120,000",
        "wait of 0 while busy",
        "wait one millisecond too short",
    ],
);

pub const VISIT: Group = (
    "resets and debuggers",
    &[
        "boot 0",
        "boot 1",
        "boot 2",
        "boot refused at level 2",
        "on refused at level 2",
        "on",
        "on when connected",
        "on while busy",
        "off",
        "off when not connected",
        "reset with a debugger connected",
        "reset that takes the mark away",
    ],
);

pub const TABLE: &[Group] = &[
    JOB,
    PAIR,
    BUFFER,
    TIMING,
    HEAD,
    LENGTH,
    NO_CALLS,
    MALFORMED[0],
    MALFORMED[1],
    MALFORMED[2],
    MALFORMED[3],
    MALFORMED[4],
    MALFORMED[5],
    MALFORMED[6],
    MALFORMED[7],
    KIND,
    SECTORS,
    LEVEL,
    CODE,
    FLAG,
    PGSERR,
    WRPERR,
    STARTED,
    FINISHED,
    CUT,
    PSIZE,
    ENDING,
    EDGE,
    READ,
    CLOSED,
    LOCK[0],
    LOCK[1],
    LANES,
    READ_AT,
    WRITTEN_AT,
    REFUSED_9,
    REGISTER,
    TIME,
    VISIT,
];
