//! Functions that set r11 for the frame chain, stopped at every halfword of their prologue: those that push
//! r11 and LR alone, which set it in 16 bits, and their nearest neighbours, which need 32.

use crate::case::{Case, Known};
use crate::chain::{assemble, enter_body, new_thread, offset_after_prologue, truth, write, Stand};
use crate::draft::{PC, SP};
use crate::functions::Function;
use crate::packed;
use crate::processor::Processor;
use crate::records::PackedFields;
use crate::rng::Rng;
use crate::steps::Effect;

/// What is pushed with r11 and LR: nothing, as often as not; what a fold pushes; r4-rX.
const RECORDS: [&str; 4] = ["alone", "alone", "PF=1", "R=0"];

/// How much longer the function is than its prologue and epilogue.
const TOO_SHORT: &str = "2 bytes short";
const JUST_ENOUGH: &str = "just enough";
const ROOMY: &str = "roomy";

const FIELDS: [&str; 13] = [
    "H=0",
    "H=1",
    "d",
    "no d",
    "no amount",
    "up to 127",
    "above 127",
    "EF",
    RETS[0],
    RETS[1],
    RETS[2],
    RETS[3],
    "Flag 2",
];

const RETS: [&str; 4] = ["Ret 0", "Ret 1", "Ret 2", "Ret 3"];

const PLACES: [&str; 7] = [
    "before push",
    "inside push",
    "before nop",
    "after nop",
    "after vpush",
    "inside a later one",
    "body behind",
];

/// Where a nop of the other size would be seen.
const NEAR: [&str; 4] = ["before nop", "inside nop", "after nop", "body behind"];

/// What the reports of this kind aim at.
pub fn classes() -> impl Iterator<Item = String> {
    let sizes = [TOO_SHORT, JUST_ENOUGH];
    let alone = FIELDS.into_iter().chain(PLACES).chain(sizes);
    let near = NEAR.into_iter().chain(sizes);
    let folded = near.clone().map(|class| named("PF=1", class));
    let saved = near.map(|class| named("R=0", class));
    alone.map(|class| named("alone", class)).chain(folded).chain(saved)
}

fn named(record: &str, class: &str) -> String {
    format!("{record}, {class}")
}

struct Plan {
    record: &'static str,
    size: &'static str,
    fields: PackedFields,
    function: Function,
}

pub fn frame_chain(rng: &mut Rng) -> Case {
    let plan = Plan::random(rng);
    let offset = plan.random_offset(rng);
    let aims = plan.aims(offset);
    let entry = new_thread(rng);
    let mut processor = entry.clone();
    let stand = plan.run_to(rng, offset, &mut processor);
    let module = assemble(rng, vec![plan.function]);
    processor.r[PC] = module.address(0, offset);
    let frames = vec![(processor.r[PC], processor.r[SP])];
    let known = match stand {
        Ok(stand) => Known::Chain(Box::new(truth(&entry, frames, &stand))),
        Err(refusal) => Known::FirstRefused(refusal),
    };
    Case { aims, ..Case::new("frame chain", write(rng, &module, &processor), known) }
}

impl Plan {
    fn random(rng: &mut Rng) -> Plan {
        let record = rng.pick(&RECORDS);
        let fields = random_fields(rng, record);
        let size = match rng.within(0..=99) {
            0..=17 if fields.flag == 1 => TOO_SHORT,
            18..=37 if fields.flag == 1 => JUST_ENOUGH,
            _ => ROOMY,
        };
        let least = packed::least_length(&fields);
        let length = match size {
            TOO_SHORT => least - 2,
            JUST_ENOUGH => least,
            _ => least + 2 * rng.within(1..=30),
        };
        let function = packed::lay_out(PackedFields { length, ..fields });
        Plan { record, size, fields, function }
    }

    /// Any halfword of the prologue or the first behind it; of the neighbours mostly one about the nop.
    /// Those that are met less than others are taken now and then by themselves.
    fn random_offset(&self, rng: &mut Rng) -> u32 {
        if self.fields.flag == 2 {
            return offset_after_prologue(rng, &self.function);
        }
        let behind = self.function.prologue_size();
        let last = match self.size {
            TOO_SHORT => self.function.length - 2,
            // No epilogue, or one that does not undo what the prologue did.
            JUST_ENOUGH if self.fields.ret == 3 || !packed::ends_agree(&self.fields) => behind - 2,
            _ => behind,
        };
        let nop = self.nop();
        let (share, some) = match self.record {
            "alone" => (15, vec![nop + 6, behind]),
            _ => (80, vec![nop, nop + 2, nop + 4, behind]),
        };
        if rng.percent(share) {
            rng.pick(&some).min(last)
        } else {
            2 * rng.within(0..=last / 2)
        }
    }

    fn nop(&self) -> u32 {
        let steps = self.function.body.steps.iter().rev();
        let before = steps.take_while(|step| step.effect != Effect::Nothing);
        before.map(|step| step.size).sum()
    }

    /// Executes up to the offset. The refusal's number, if the record has no room in the function or the
    /// offset is inside an instruction.
    fn run_to(&self, rng: &mut Rng, offset: u32, processor: &mut Processor) -> Result<Stand, u32> {
        if self.size == TOO_SHORT {
            return Err(7);
        }
        if offset < self.function.prologue_size() {
            return self.run_prologue(offset, processor);
        }
        enter_body(rng, &self.function, processor);
        let (place, list) = if self.function.is_body(offset) {
            ("body", &self.function.body)
        } else {
            ("epilogue", &self.function.epilogues[0].list)
        };
        Ok(Stand { offset, place, codes: list.steps.len() })
    }

    fn run_prologue(&self, offset: u32, processor: &mut Processor) -> Result<Stand, u32> {
        let (mut at, mut below_r11) = (0, 0);
        for (codes, step) in self.function.body.steps.iter().rev().enumerate() {
            if at == offset {
                return Ok(Stand { offset, place: "prologue", codes });
            }
            processor.execute(step.effect);
            match step.effect {
                Effect::Push(list) => below_r11 = (list & 0x7ff).count_ones(),
                // What the nop stands for: r11 points at its saved value.
                Effect::Nothing => processor.r[11] = processor.r[SP] + 4 * below_r11,
                _ => {}
            }
            at += step.size;
        }
        Err(9)
    }

    /// The classes that the histogram counts.
    fn aims(&self, offset: u32) -> Vec<String> {
        let mut met = vec![self.size];
        met.extend(self.met_fields());
        if self.fields.flag == 1 && self.size != TOO_SHORT {
            met.extend(self.met_places(offset));
        }
        let counted: Vec<String> = classes().collect();
        let aims = met.into_iter().map(|class| named(self.record, class));
        aims.filter(|aim| counted.contains(aim)).collect()
    }

    fn met_fields(&self) -> Vec<&'static str> {
        let PackedFields { flag, ret, h, reg, stack_adjust, .. } = self.fields;
        let amount = match stack_adjust {
            0 => "no amount",
            1..=127 => "up to 127",
            128..=0x3f3 => "above 127",
            _ => "EF",
        };
        let vectors = if reg == 7 { "no d" } else { "d" };
        let home = if h { "H=1" } else { "H=0" };
        let mut met = vec![home, vectors, amount, RETS[ret as usize]];
        met.extend((flag == 2).then_some("Flag 2"));
        met
    }

    fn met_places(&self, offset: u32) -> Vec<&'static str> {
        let mut at = 0;
        let mut met = Vec::new();
        for step in self.function.body.steps.iter().rev() {
            let start = at;
            at += step.size;
            let inside = start < offset && offset < at;
            met.push(match step.effect {
                Effect::Push(_) if offset <= start => "before push",
                Effect::Push(_) if inside => "inside push",
                Effect::Nothing if offset == start => "before nop",
                Effect::Nothing if inside => "inside nop",
                Effect::Nothing if offset == at => "after nop",
                Effect::VectorPush(..) if offset == at => "after vpush",
                _ if inside => "inside a later one",
                _ => continue,
            });
        }
        met.extend((offset == at && self.function.is_body(offset)).then_some("body behind"));
        met
    }
}

fn random_fields(rng: &mut Rng, record: &str) -> PackedFields {
    let vectors = rng.percent(80);
    PackedFields {
        flag: if rng.percent(90) { 1 } else { 2 },
        length: 0,
        ret: rng.within(0..=3),
        h: rng.flag(),
        reg: match record {
            "R=0" => rng.pick(&[0, 0, 0, 1, 6]),
            _ if vectors => rng.within(0..=6),
            _ => 7,
        },
        r: record != "R=0",
        l: true,
        c: true,
        stack_adjust: match (record, rng.within(0..=3)) {
            ("PF=1", _) => rng.within(0x3f4..=0x3f7) | rng.pick(&[0, 8]),
            (_, 0) => 0,
            (_, 1) => rng.pick(&[1, 2, 4, 126, 127]),
            (_, 2) => rng.pick(&[128, 129, 256, 0x3f3]),
            _ => rng.within(0x3f8..=0x3fb),
        },
    }
}
