//! A processor that executes prologues and epilogues forwards, as far as they concern unwinding. What
//! it had at a function's entry is the truth that an unwinder has to find again.

use crate::draft::{LR, SP};
use crate::rng::Rng;
use crate::steps::Effect;

#[derive(Clone, Debug)]
pub struct Processor {
    pub r: [u32; 16],
    pub d: [u64; 32],
    stack_base: u32,
    memory: Vec<u32>,
}

impl Processor {
    /// Random registers and memory; SP stands `above` words below the end of the stack.
    pub fn new(rng: &mut Rng, stack_base: u32, words: u32, above: u32) -> Processor {
        let mut processor = Processor {
            r: [0; 16],
            d: [0; 32],
            stack_base,
            memory: (0..words).map(|_| rng.word()).collect(),
        };
        processor.r.iter_mut().for_each(|register| *register = rng.word());
        processor.d.iter_mut().for_each(|register| *register = rng.next());
        processor.r[SP] = stack_base + 4 * (words - above);
        processor
    }

    fn slot(&mut self, address: u32) -> &mut u32 {
        &mut self.memory[((address - self.stack_base) / 4) as usize]
    }

    fn push_word(&mut self, value: u32) {
        self.r[SP] -= 4;
        *self.slot(self.r[SP]) = value;
    }

    fn pop_word(&mut self) -> u32 {
        let value = *self.slot(self.r[SP]);
        self.r[SP] += 4;
        value
    }

    /// Executes an instruction of a prologue.
    pub fn execute(&mut self, effect: Effect) {
        match effect {
            Effect::Nothing => {}
            Effect::Room(words) => self.r[SP] -= 4 * words,
            Effect::Push(list) => {
                for number in (0..16).rev().filter(|number| list >> number & 1 == 1) {
                    self.push_word(self.r[number]);
                }
            }
            Effect::VectorPush(first, last) => {
                for number in (first..=last).rev() {
                    let value = self.d[number as usize];
                    self.push_word((value >> 32) as u32);
                    self.push_word(value as u32);
                }
            }
            Effect::Anchor(register) => self.r[register as usize] = self.r[SP],
            Effect::StoreLink(words) => {
                self.r[SP] -= 4 * words;
                *self.slot(self.r[SP]) = self.r[LR];
            }
        }
    }

    /// Executes the instruction of an epilogue that reverses `effect`.
    pub fn reverse(&mut self, effect: Effect) {
        match effect {
            Effect::Nothing => {}
            Effect::Room(words) => self.r[SP] += 4 * words,
            Effect::Push(list) => {
                for number in (0..16).filter(|number| list >> number & 1 == 1) {
                    self.r[number] = self.pop_word();
                }
            }
            Effect::VectorPush(first, last) => {
                for number in first..=last {
                    let low = u64::from(self.pop_word());
                    let high = u64::from(self.pop_word());
                    self.d[number as usize] = low | high << 32;
                }
            }
            Effect::Anchor(register) => self.r[SP] = self.r[register as usize],
            Effect::StoreLink(words) => {
                self.r[LR] = *self.slot(self.r[SP]);
                self.r[SP] += 4 * words;
            }
        }
    }

    /// Does to the registers what a body may: new values in all that its prologue saved and in those
    /// that belong to no one, and a lower SP if the prologue ended by anchoring it.
    pub fn run_body(&mut self, rng: &mut Rng, prologue: &[Effect]) {
        let mut free = 0x100f_u32;
        let mut free_vectors = 0xffff_00ff_u32;
        for effect in prologue {
            match *effect {
                Effect::Push(list) => free |= list,
                Effect::VectorPush(first, last) => {
                    (first..=last).for_each(|number| free_vectors |= 1 << number);
                }
                Effect::StoreLink(_) => free |= 1 << LR,
                _ => {}
            }
        }
        for effect in prologue {
            if let Effect::Anchor(register) = *effect {
                free &= !(1 << register);
            }
        }
        if let Some(Effect::Anchor(_)) = prologue.last() {
            self.r[SP] -= 4 * rng.within(0..=9);
        }
        for number in (0..16).filter(|number| free >> number & 1 == 1) {
            self.r[number] = rng.word();
        }
        for number in (0..32).filter(|number| free_vectors >> number & 1 == 1) {
            self.d[number] = rng.next();
        }
    }

    /// The stack from `below` words under SP up, and its base address.
    pub fn stack(&self, below: u32) -> (u32, &[u32]) {
        let base = self.r[SP] - 4 * below;
        (base, &self.memory[((base - self.stack_base) / 4) as usize..])
    }
}
