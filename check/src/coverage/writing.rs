//! Scripts for the job writer: what each step shows.

use super::refused::{count_alone, wrong_fields};
use super::table::Group;
use super::Coverage;
use crate::model::job::{COUNT_MAX, HEAD_LEN, RECORD_LEN};
use crate::model::writer::{Fields, DONE, MALFORMED, NO_ROOM};
use crate::stage::Played;
use crate::writing::{Count, Step};

const BEGIN: Group = (
    "begin",
    &["done", "done once more", "20: buffer below 7 bytes"],
);

/// By kind of call.
const APPENDED: Group = (
    "append done",
    &[
        "reset", "on", "off", "read", "write", "pass", "wait", "fetch",
    ],
);
const LARGEST: Group = (
    "append done with the largest",
    &[
        "address",
        "time",
        "value of 1 byte",
        "value of 2 bytes",
        "value of 4 bytes",
        "value of 8 bytes",
    ],
);

/// By kind of call. Each row counts where one field was wrong alone.
const WRONG_FIELD: [Group; 8] = [
    (
        "append refused 5, reset",
        &["who", "width", "value", "boot"],
    ),
    ("append refused 5, on", &["who", "width", "value", "number"]),
    (
        "append refused 5, off",
        &["who", "width", "value", "number"],
    ),
    ("append refused 5, read", &["who", "width", "value"]),
    ("append refused 5, write", &["who", "width", "value"]),
    ("append refused 5, pass", &["who", "width", "value"]),
    ("append refused 5, wait", &["who", "width", "value"]),
    ("append refused 5, fetch", &["who", "width", "value"]),
];
const WRONG_KIND: Group = ("append refused 5", &["kind above 7"]);
const ABOVE_BYTE: Group = (
    "append refused 5, sound in the lowest byte",
    &["kind", "who", "width"],
);
const ONE_TOO_BIG: Group = (
    "append refused 5, value one too big for",
    &["1 byte", "2 bytes", "4 bytes"],
);
const BEFORE_NO_ROOM: Group = (
    "append refused 5, where 20 applies too",
    &["no room in the buffer", "count of 2,000 or more"],
);
const NO_ROOM_TO_APPEND: Group = (
    "append refused 20",
    &[
        "buffer below 7 bytes",
        "no byte of the record",
        "all but one byte of the record",
        "the 2,001st call",
        "count 2,000, room in the buffer",
        "count above 2,000, room in the buffer",
        "count whose place passes 32 bits",
    ],
);

const CLOSE: Group = (
    "close",
    &[
        "done",
        "done with count 0",
        "done with count 2,000",
        "20: buffer below 7 bytes",
        "20: count 2,001",
        "20: count above 65,535",
    ],
);
const MADE: Group = (
    "counts made by hand",
    &[
        "append done over an earlier call",
        "append done beyond the last call",
        "append refused 20",
        "close done with another count",
        "close refused 20",
    ],
);

const RUN: Group = (
    "jobs run out of the writer's buffer",
    &[
        "no calls, answer buffer of 0 bytes: done",
        "no calls, longer answer buffer: done",
        "no calls, begun and not closed: done",
        "closed: done",
        "closed again after more appends: done",
        "closed after refused appends: done",
        "2,000 calls: done",
        "count 0 with records behind it: 4",
        "appended to after a close: 4",
        "closed with another count: 4",
        "not begun: 3",
    ],
);

pub const TABLE: &[Group] = &[
    BEGIN,
    APPENDED,
    LARGEST,
    WRONG_FIELD[0],
    WRONG_FIELD[1],
    WRONG_FIELD[2],
    WRONG_FIELD[3],
    WRONG_FIELD[4],
    WRONG_FIELD[5],
    WRONG_FIELD[6],
    WRONG_FIELD[7],
    WRONG_KIND,
    ABOVE_BYTE,
    ONE_TOO_BIG,
    BEFORE_NO_ROOM,
    NO_ROOM_TO_APPEND,
    CLOSE,
    MADE,
    RUN,
];

/// What a script has done since its last begin, as a caller who counts.
#[derive(Default)]
pub struct Watch {
    begun: bool,
    /// Appends were done that no close has counted.
    is_unclosed: bool,
    /// Closed, and closed once more after further appends.
    closed: bool,
    closed_again: bool,
    /// The last close had another count than the caller's.
    miscounted: bool,
    refused: bool,
}

impl Watch {
    pub fn observe(&mut self, coverage: &mut Coverage, played: &Played) {
        coverage.steps += 1;
        match played.step {
            Step::Begin => self.count_begin(coverage, played),
            Step::Append(count, fields) => {
                count_append(coverage, played, fields);
                if let Count::Made(_) = count {
                    count_made_append(coverage, played);
                }
                self.note_append(count, played.plain);
            }
            Step::Close(_) => {
                count_close(coverage, played);
                self.note_close(played);
            }
            Step::Run { .. } => self.count_run(coverage, played),
        }
    }

    fn count_begin(&mut self, coverage: &mut Coverage, played: &Played) {
        let done = played.plain == DONE;
        let mut count = |name, applies| coverage.count_if(BEGIN, name, applies);
        count("done", done && !self.begun);
        count("done once more", done && self.begun);
        count("20: buffer below 7 bytes", played.plain == NO_ROOM);
        if done {
            *self = Watch {
                begun: true,
                ..Watch::default()
            };
        }
    }

    fn note_append(&mut self, count: Count, result: u32) {
        match (count, result) {
            (Count::Kept, DONE) => self.is_unclosed = true,
            (_, DONE) => {}
            _ => self.refused = true,
        }
    }

    fn note_close(&mut self, played: &Played) {
        if played.plain != DONE {
            return;
        }
        self.miscounted = played.count != played.kept;
        if !self.miscounted {
            self.closed_again |= self.closed && self.is_unclosed;
            self.closed = true;
            self.is_unclosed = false;
        }
    }

    fn count_run(&self, coverage: &mut Coverage, played: &Played) {
        let calls = played.kept as usize;
        let job = &played.lent.job;
        let is_done = played.plain == 0;
        let is_refused = played.plain == 4 && self.begun;
        let room = !played.lent.answers.is_empty();
        let says_0 = job.len() > HEAD_LEN && job[5..HEAD_LEN] == [0, 0];
        let mut count = |name, applies| coverage.count_if(RUN, name, applies);
        let no_calls = is_done && calls == 0;
        count(
            "no calls, answer buffer of 0 bytes: done",
            no_calls && !room,
        );
        count("no calls, longer answer buffer: done", no_calls && room);
        count(
            "no calls, begun and not closed: done",
            no_calls && !self.closed,
        );
        let closed = is_done && calls > 0 && self.closed;
        count("closed: done", closed);
        count(
            "closed again after more appends: done",
            closed && self.closed_again,
        );
        count("closed after refused appends: done", closed && self.refused);
        count("2,000 calls: done", is_done && calls == COUNT_MAX);
        count("count 0 with records behind it: 4", is_refused && says_0);
        count(
            "appended to after a close: 4",
            is_refused && self.closed && self.is_unclosed && !self.miscounted,
        );
        count(
            "closed with another count: 4",
            is_refused && self.miscounted,
        );
        count("not begun: 3", played.plain == 3 && !self.begun);
    }
}

fn count_append(coverage: &mut Coverage, played: &Played, fields: Fields) {
    match played.plain {
        DONE => count_appended(coverage, fields),
        MALFORMED => count_malformed(coverage, played, fields),
        _ => count_no_room(coverage, played),
    }
}

fn count_appended(coverage: &mut Coverage, fields: Fields) {
    coverage.count(APPENDED.0, APPENDED.1[fields.kind as usize]);
    let is_largest = fields.number == u32::MAX;
    let is_address = matches!(fields.kind, 3 | 4 | 7);
    let mut count = |name, applies| coverage.count_if(LARGEST, name, applies);
    count("address", is_largest && is_address);
    count("time", is_largest && !is_address);
    let values = [
        ("value of 1 byte", 1, 0xFF),
        ("value of 2 bytes", 2, 0xFFFF),
        ("value of 4 bytes", 4, 0xFFFF_FFFF),
        ("value of 8 bytes", 8, u64::MAX),
    ];
    for (name, width, largest) in values {
        count(name, fields.width == width && fields.value == largest);
    }
}

fn count_malformed(coverage: &mut Coverage, played: &Played, fields: Fields) {
    match WRONG_FIELD.get(fields.kind as usize) {
        Some(group) => count_alone(coverage, *group, &wrong_fields(fields)),
        None => coverage.count(WRONG_KIND.0, WRONG_KIND.1[0]),
    }
    count_above_byte(coverage, fields);
    let bits = 8 * u64::from(fields.width);
    if fields.kind == 4 && fields.who < 2 && bits < 64 && fields.value == 1 << bits {
        let row = [8, 16, 32].iter().position(|&held| held == bits);
        count_alone(
            coverage,
            ONE_TOO_BIG,
            &[0, 1, 2].map(|index| row == Some(index)),
        );
    }
    let mut count = |name, applies| coverage.count_if(BEFORE_NO_ROOM, name, applies);
    count("no room in the buffer", needed(played) > played.buffer_len);
    count("count of 2,000 or more", played.count as usize >= COUNT_MAX);
}

/// A writer that looked at the lowest byte of a field alone would take these.
fn count_above_byte(coverage: &mut Coverage, fields: Fields) {
    let lowest = Fields {
        kind: fields.kind & 0xFF,
        who: fields.who & 0xFF,
        width: fields.width & 0xFF,
        ..fields
    };
    if lowest.kind <= 7 && wrong_fields(lowest) == [false; 4] {
        let above = [fields.kind, fields.who, fields.width].map(|field| field > 0xFF);
        count_alone(coverage, ABOVE_BYTE, &above);
    }
}

/// The bytes up to the end of the record that is to be appended.
fn needed(played: &Played) -> usize {
    HEAD_LEN + RECORD_LEN * (played.count as usize + 1)
}

fn count_no_room(coverage: &mut Coverage, played: &Played) {
    let len = played.buffer_len;
    let counted = played.count as usize;
    let lacks = needed(played).saturating_sub(len);
    let mut count = |name, applies| coverage.count_if(NO_ROOM_TO_APPEND, name, applies);
    count("buffer below 7 bytes", len < HEAD_LEN);
    if counted < COUNT_MAX {
        count("no byte of the record", lacks == RECORD_LEN);
        count("all but one byte of the record", lacks == 1);
    } else {
        count("the 2,001st call", played.kept as usize == COUNT_MAX);
        count(
            "count 2,000, room in the buffer",
            counted == COUNT_MAX && lacks == 0,
        );
        count(
            "count above 2,000, room in the buffer",
            counted > COUNT_MAX && lacks == 0,
        );
        count(
            "count whose place passes 32 bits",
            needed(played) > u32::MAX as usize,
        );
    }
}

fn count_close(coverage: &mut Coverage, played: &Played) {
    let done = played.plain == DONE;
    let refused = played.plain == NO_ROOM;
    let has_head = played.buffer_len >= HEAD_LEN;
    let told = played.count as usize;
    let mut count = |name, applies| coverage.count_if(CLOSE, name, applies);
    count("done", done);
    count("done with count 0", done && told == 0);
    count("done with count 2,000", done && told == COUNT_MAX);
    count(
        "20: buffer below 7 bytes",
        refused && !has_head && told <= COUNT_MAX,
    );
    count(
        "20: count 2,001",
        refused && has_head && told == COUNT_MAX + 1,
    );
    count(
        "20: count above 65,535",
        refused && has_head && told > 65_535,
    );
    if told != played.kept as usize {
        let mut count = |name, applies| coverage.count_if(MADE, name, applies);
        count("close done with another count", done);
        count("close refused 20", refused);
    }
}

fn count_made_append(coverage: &mut Coverage, played: &Played) {
    let done = played.plain == DONE;
    let mut count = |name, applies| coverage.count_if(MADE, name, applies);
    count(
        "append done over an earlier call",
        done && played.count < played.kept,
    );
    count(
        "append done beyond the last call",
        done && played.count > played.kept,
    );
    count("append refused 20", played.plain == NO_ROOM);
}
