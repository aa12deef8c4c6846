//! Random scripts for the job writer. The calls of a sound job are appended
//! one after the other by a caller who counts; what a caller may do besides
//! comes in between.

use super::damage::any_call;
use super::{beside, Generator};
use crate::model::job::{COUNT_MAX, HEAD_LEN, RECORD_LEN};
use crate::model::writer::Fields;
use crate::random::Random;
use crate::writing::{Count, Script, Step};

impl Generator {
    /// Fills the script with that of this seed.
    pub fn generate_script(&mut self, seed: u64, script: &mut Script) {
        let random = Random::new(seed);
        let count = choose_count(&random);
        let sectors = 1 + random.index(4);
        self.generate_sound(
            &random,
            Some(&beside(seed)),
            sectors,
            count,
            &mut script.lent,
        );
        script.buffer.resize(choose_len(&random, count), 0);
        random.fill(&mut script.buffer);
        script.steps.clear();
        let mut steps = Steps {
            random: &random,
            disturbed: random.pick(&[0, 1, 4, 30]),
            steps: &mut script.steps,
        };
        steps.write(&self.records);
    }
}

fn choose_count(random: &Random) -> usize {
    let (least, most) = random.weigh(&[
        (8, (0, 0)),
        (70, (1, 20)),
        (20, (21, 200)),
        (2, (COUNT_MAX - 1, COUNT_MAX + 2)),
    ]);
    least + random.index(most - least + 1)
}

/// As the calls need it, near what fewer calls need, no head, or big.
fn choose_len(random: &Random, count: usize) -> usize {
    let needed = HEAD_LEN + RECORD_LEN * count;
    let fewer = HEAD_LEN + RECORD_LEN * random.index(count + 1);
    let more = needed + random.pick(&[1, 15, 16, 17, 100]);
    let beside = fewer + random.pick(&[0, 1, 8, 15]) - random.pick(&[0, 1]);
    let short = random.index(HEAD_LEN + 2);
    let longest = HEAD_LEN + RECORD_LEN * COUNT_MAX;
    let big = longest - 1 + random.pick(&[0, 1, 2, RECORD_LEN, RECORD_LEN + 1, 40_000, 40_000]);
    random.weigh(&[
        (45, needed),
        (15, more),
        (20, beside),
        (8, short),
        (12, big),
    ])
}

struct Steps<'a> {
    random: &'a Random,
    /// How often something comes in between, in percent.
    disturbed: u32,
    steps: &'a mut Vec<Step>,
}

impl Steps<'_> {
    fn write(&mut self, records: &[[u8; RECORD_LEN]]) {
        if self.random.chance(96) {
            self.steps.push(Step::Begin);
        }
        for record in records {
            while self.random.chance(self.disturbed) {
                self.disturb();
            }
            self.append(Fields::of(record));
        }
        self.end();
    }

    fn append(&mut self, fields: Fields) {
        self.steps.push(Step::Append(Count::Kept, fields));
    }

    fn close(&mut self) {
        self.steps.push(Step::Close(Count::Kept));
    }

    fn run(&mut self) {
        let spare = self.random.pick(&[0, 0, 1, 16, 40]);
        self.steps.push(Step::Run { spare });
    }

    fn disturb(&mut self) {
        let made = Count::Made(any_count(self.random));
        match self.random.below(40) {
            0..=13 => self.append(malformed(self.random)),
            14..=17 => self.append(largest(self.random)),
            18..=20 => self.close(),
            21..=22 => self.run(),
            23..=26 => {
                self.close();
                self.run();
            }
            27..=30 => self.steps.push(Step::Append(made, sound(self.random))),
            31..=34 => self.steps.push(Step::Append(made, malformed(self.random))),
            35..=38 => self.steps.push(Step::Close(made)),
            _ => self.steps.push(Step::Begin),
        }
    }

    /// Closed and run, run as it is, or taken up again after both.
    fn end(&mut self) {
        let ending = self.random.below(10);
        if ending > 0 {
            self.close();
        }
        self.run();
        if ending > 7 {
            self.append(sound(self.random));
            self.run();
            self.close();
            self.run();
        }
    }
}

/// Sixteen times some of these passes 32 bits.
fn any_count(random: &Random) -> u32 {
    let any = random.word() >> random.below(32);
    random.pick(&[
        0,
        1,
        random.below(20),
        255,
        256,
        1_999,
        2_000,
        2_001,
        65_535,
        65_536,
        65_537,
        (1 << 28) - 1,
        1 << 28,
        (1 << 28) + 1,
        u32::MAX,
        any,
    ])
}

fn sound(random: &Random) -> Fields {
    Fields::of(&any_call(random).encode())
}

/// A call with the largest number and value that its record can have.
fn largest(random: &Random) -> Fields {
    let mut fields = sound(random);
    match fields.kind {
        0 => fields.number = 2,
        1 | 2 => {}
        _ => fields.number = u32::MAX,
    }
    if fields.kind == 4 {
        fields.value = u64::MAX >> (64 - 8 * fields.width);
    }
    fields
}

/// A call with one field that no record can have. Often its lowest byte alone
/// would be sound.
fn malformed(random: &Random) -> Fields {
    let mut fields = sound(random);
    let high = 1 << random.pick(&[8, 16, 31, 8 + random.below(24)]);
    let is_access = matches!(fields.kind, 3 | 4);
    match random.below(5) {
        0 => fields.kind = random.pick(&[8, 9, 255, u32::MAX, high | fields.kind]),
        1 if is_access => fields.who = random.pick(&[2, 255, u32::MAX, high | fields.who]),
        1 => fields.who = random.pick(&[1, 255, u32::MAX, high]),
        2 if is_access => {
            let no_width = random.pick(&[0, 3, 5, 6, 7, 9, 16, 255, u32::MAX]);
            fields.width = random.pick(&[no_width, high | fields.width]);
        }
        2 if fields.kind == 7 => {
            fields.width = random.pick(&[0, 1, 2, 8, u32::MAX, high | fields.width]);
        }
        2 => fields.width = random.pick(&[1, 2, 4, 8, u32::MAX, high]),
        3 if fields.kind == 0 => fields.number = random.pick(&[3, u32::MAX, high | fields.number]),
        3 if fields.kind < 3 => fields.number = random.pick(&[1, u32::MAX, high]),
        _ => spoil_value(random, &mut fields),
    }
    fields
}

/// A value where there is none, or one that its width does not hold.
fn spoil_value(random: &Random, fields: &mut Fields) {
    let bits = if fields.kind == 4 {
        8 * fields.width
    } else {
        0
    };
    if bits == 64 {
        fields.width = 0;
    } else {
        let any = 1 << (bits + random.below(64 - bits));
        fields.value = random.pick(&[1 << bits, any, u64::MAX]);
    }
}
