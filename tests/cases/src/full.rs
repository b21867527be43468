//! Random full records.

use crate::functions::{Epilogue, Function, Record};
use crate::records::{FullRecord, Scope, Scopes};
use crate::rng::Rng;
use crate::steps::{self, Effect, List, Step, ENDS, PLAIN_END};

const ALWAYS: u32 = 0xe;

/// Any sound full record.
pub fn any(rng: &mut Rng) -> Function {
    let body = random_list(rng);
    with_body(rng, body, 0)
}

/// A full record with this list for its body, at least `room` bytes of body, and any epilogues.
pub fn with_body(rng: &mut Rng, body: List, room: u32) -> Function {
    let mut pool = Pool::new(&body);
    let epilogues = random_epilogues(rng, &body, &mut pool);
    let fragment = rng.percent(20);
    let plan = Plan { fragment, conditions: true, room, gap, body, pool, epilogues };
    lay_out(rng, plan)
}

/// A full record of a function that can be in a chain of calls.
pub fn in_chain(rng: &mut Rng) -> Function {
    let body = orderly_list(rng);
    let pool = Pool::new(&body);
    let epilogues = vec![(body.clone(), 0); rng.below(3)];
    let plan = Plan { fragment: false, conditions: false, room: 8, gap, body, pool, epilogues };
    lay_out(rng, plan)
}

/// A list of any codes.
pub fn random_list(rng: &mut Rng) -> List {
    let mut steps: Vec<Step> = match rng.within(0..=199) {
        0 => (0..rng.within(250..=1_000)).map(|_| steps::one_byte(rng)).collect(),
        1..=8 => (0..rng.within(0..=150)).map(|_| steps::any(rng)).collect(),
        _ => (0..rng.within(0..=7)).map(|_| steps::any(rng)).collect(),
    };
    if rng.percent(15) {
        steps.insert(0, steps::anchor(rng.pick(&[4, 5, 6, 7, 8, 9, 10, 11, 12, 14])));
    }
    List { steps, end: rng.pick(&ENDS) }
}

/// A step that any prologue may have anywhere.
pub fn harmless_step(rng: &mut Rng) -> Step {
    loop {
        let step = steps::any(rng);
        let harmless = !matches!(step.effect, Effect::Anchor(_) | Effect::StoreLink(0));
        if harmless && step.effect.words() <= 64 {
            return step;
        }
    }
}

/// A prologue that saves LR and, before it anchors SP in a register, that register.
fn orderly_list(rng: &mut Rng) -> List {
    let anchored = rng.percent(35);
    let mut forward: Vec<Step> = (0..rng.below(3)).map(|_| harmless_step(rng)).collect();
    forward.push(if anchored { steps::high_push(3, true) } else { link_saver(rng) });
    forward.extend((0..rng.below(4)).map(|_| harmless_step(rng)));
    if anchored {
        forward.push(steps::anchor(rng.within(4..=11)));
        forward.extend((0..rng.below(2)).map(|_| harmless_step(rng)));
    }
    forward.reverse();
    List { steps: forward, end: rng.pick(&ENDS[..2]) }
}

fn link_saver(rng: &mut Rng) -> Step {
    loop {
        let step = harmless_step(rng);
        if step.effect.saves_link() {
            return step;
        }
    }
}

/// The code bytes of a record while lists are added to them.
pub struct Pool {
    pub bytes: Vec<u8>,
}

impl Pool {
    pub fn new(body: &List) -> Pool {
        Pool { bytes: body.code_bytes() }
    }

    pub fn add(&mut self, list: &List) -> usize {
        let index = self.bytes.len();
        self.bytes.extend(list.code_bytes());
        index
    }

    /// Whole words; what stands behind the last end code may be anything.
    fn padded(mut self, rng: &mut Rng) -> Vec<u8> {
        while !self.bytes.len().is_multiple_of(4) {
            self.bytes.push(rng.byte());
        }
        self.bytes
    }
}

fn random_epilogues(rng: &mut Rng, body: &List, pool: &mut Pool) -> Vec<(List, usize)> {
    let count = match rng.within(0..=999) {
        0..=149 => 0,
        150..=549 => 1,
        550..=959 => rng.below(5) + 2,
        960..=989 => rng.below(60) + 28,
        990..=998 => rng.below(400) + 200,
        _ => rng.below(3_000) + 1_000,
    };
    (0..count).map(|_| random_epilogue(rng, body, pool)).collect()
}

/// An epilogue's list and its code index: shared, a tail of the body's, its own, or empty.
fn random_epilogue(rng: &mut Rng, body: &List, pool: &mut Pool) -> (List, usize) {
    let room = pool.bytes.len() < 200;
    match rng.within(0..=9) {
        0..=3 => (body.clone(), 0),
        4..=5 => body.without(rng.below(body.steps.len() + 1)),
        6..=8 if room => {
            let steps = (0..rng.below(4)).map(|_| steps::any(rng)).collect();
            let list = List { steps, end: rng.pick(&ENDS) };
            let index = pool.add(&list);
            (list, index)
        }
        9 if room => {
            let list = List { steps: Vec::new(), end: PLAIN_END };
            let index = pool.add(&list);
            (list, index)
        }
        _ => (body.clone(), 0),
    }
}

/// What a full record is made of, before its parts have offsets.
pub struct Plan {
    pub body: List,
    pub pool: Pool,
    /// Each with its code index.
    pub epilogues: Vec<(List, usize)>,
    pub fragment: bool,
    /// Some epilogues may be conditional.
    pub conditions: bool,
    /// Bytes of body at least.
    pub room: u32,
    /// Bytes of body besides.
    pub gap: fn(&mut Rng) -> u32,
}

/// Bytes of body: a few mostly, sometimes very many.
fn gap(rng: &mut Rng) -> u32 {
    if rng.percent(98) {
        2 * rng.within(0..=12)
    } else {
        2 * rng.within(0..=0x1_0000)
    }
}

pub fn lay_out(rng: &mut Rng, plan: Plan) -> Function {
    let single = plan.epilogues.len() == 1 && rng.flag();
    let prologue = if plan.fragment { 0 } else { plan.body.prologue_size() };
    let mut at = prologue + plan.room + (plan.gap)(rng);
    let mut scopes = Vec::new();
    let mut epilogues = Vec::new();
    for (list, index) in plan.epilogues {
        // What does not fit the scope's bits is left out.
        if !single && (index > 255 || at > 0x4_0000) {
            continue;
        }
        let always = !plan.conditions || rng.percent(90);
        let condition = if always { ALWAYS } else { rng.within(0..=15) };
        scopes.push(Scope { start: at, reserved: 0, condition, index: index as u32 });
        let size = list.epilogue_size();
        epilogues.push(Epilogue { start: at, list });
        at += if single { size } else { size.max(2) + 2 * rng.within(0..=6) };
    }
    let length = at + if single || rng.percent(30) { 0 } else { (plan.gap)(rng) };
    let record = FullRecord {
        length,
        version: 0,
        fragment: plan.fragment,
        scopes: if single { Scopes::AtEnd(scopes[0].index) } else { Scopes::Listed(scopes) },
        codes: plan.pool.padded(rng),
        handler: rng.percent(30).then(|| rng.word()),
        extended: rng.percent(12),
        reserved: 0,
    };
    let record = Record::Full(record);
    Function { length, record, body: plan.body, fragment: plan.fragment, epilogues }
}
