//! A plain loop over the instructions that `crates/psy_bench` steps a proved machine through, to compare
//! speeds with: `rustc -O bench/machine.rs`.

#[derive(Clone, Copy)]
enum Instr {
    Push(i32),
    Load(u32),
    Store(u32),
    StoreCell { base: u32, cells: u32 },
    StoreCopy(u32),
    Jump(u32),
    JumpZero(u32),
    Zero(u32),
    Guard { counter: u32, bound: u32 },
    Call(u32),
    Return,
    Advance(u32),
    Mul,
    Add,
    Sub,
    Lt,
    And,
}

use Instr::*;

const INSTRS: [Instr; 33] = [
    Zero(0),
    Load(0),
    Push(8),
    Lt,
    Guard { counter: 0, bound: 8 },
    JumpZero(21),
    Load(1),
    Load(0),
    Call(0),
    Add,
    Store(1),
    Load(0),
    Push(3),
    And,
    Load(1),
    StoreCell { base: 2, cells: 4 },
    Load(0),
    Push(1),
    Add,
    Store(0),
    Jump(1),
    Push(0),
    Store(0),
    Load(1),
    StoreCopy(0),
    Advance(1),
    Jump(0),
    Load(0),
    Push(3),
    Mul,
    Load(1),
    Sub,
    Return,
];

struct Function {
    entry: usize,
    params: usize,
    locals: Vec<i32>,
}

struct Caller {
    back: usize,
    base: usize,
}

enum Step {
    Went,
    Ended,
    Trapped,
}

struct Machine {
    place: usize,
    operands: Vec<i32>,
    cells: Vec<i32>,
    base: usize,
    counters: Vec<u32>,
    callers: Vec<Caller>,
    copies: Vec<i32>,
    points: Vec<usize>,
}

impl Machine {
    fn binary(&mut self, value: impl Fn(i32, i32) -> i32) -> Step {
        let b = self.operands.pop().unwrap();
        let a = self.operands.last_mut().unwrap();
        *a = value(*a, b);
        Step::Went
    }

    fn step(&mut self, instrs: &[Instr], functions: &[Function]) -> Step {
        let instr = instrs[self.place];
        self.place += 1;
        match instr {
            Push(number) => self.operands.push(number),
            Load(cell) => self.operands.push(self.cells[self.base + cell as usize]),
            Store(cell) => self.cells[self.base + cell as usize] = self.operands.pop().unwrap(),
            StoreCell { base, cells } => {
                let value = self.operands.pop().unwrap();
                let index = self.operands.pop().unwrap();
                if index < 0 || index as u32 >= cells {
                    return Step::Trapped;
                }
                self.cells[self.base + base as usize + index as usize] = value;
            }
            StoreCopy(variable) => self.copies[variable as usize] = self.operands.pop().unwrap(),
            Jump(to) => self.place = to as usize,
            JumpZero(to) => {
                if self.operands.pop().unwrap() == 0 {
                    self.place = to as usize;
                }
            }
            Zero(counter) => self.counters[counter as usize] = 0,
            Guard { counter, bound } => {
                let turns = &mut self.counters[counter as usize];
                if *self.operands.last().unwrap() != 0 {
                    if *turns == bound {
                        return Step::Trapped;
                    }
                    *turns += 1;
                }
            }
            Call(function) => {
                let function = &functions[function as usize];
                self.callers.push(Caller { back: self.place, base: self.base });
                self.base = self.cells.len();
                let first = self.operands.len() - function.params;
                self.cells.extend_from_slice(&self.operands[first..]);
                self.cells.extend_from_slice(&function.locals);
                self.operands.truncate(first);
                self.place = function.entry;
            }
            Return => {
                let caller = self.callers.pop().unwrap();
                self.cells.truncate(self.base);
                self.base = caller.base;
                self.place = caller.back;
            }
            Advance(point) => {
                self.place = self.points[point as usize];
                return Step::Ended;
            }
            Mul => return self.binary(i32::wrapping_mul),
            Add => return self.binary(i32::wrapping_add),
            Sub => return self.binary(i32::wrapping_sub),
            Lt => return self.binary(|a, b| i32::from(a < b)),
            And => return self.binary(|a, b| a & b),
        }
        Step::Went
    }
}

#[inline(never)]
fn actions_within(steps: u64, machine: &mut Machine, instrs: &[Instr], functions: &[Function]) -> u64 {
    let mut actions = 0;
    for _ in 0..steps {
        match machine.step(instrs, functions) {
            Step::Ended => actions += 1,
            Step::Went => {}
            Step::Trapped => break,
        }
    }
    actions
}

fn main() {
    let steps = std::env::args().nth(1).and_then(|word| word.parse().ok()).expect("a number of steps");
    let instrs = Vec::from(INSTRS);
    let functions = vec![Function { entry: 27, params: 1, locals: vec![5] }];
    let mut machine = Machine {
        place: 0,
        operands: Vec::with_capacity(3),
        cells: vec![0; 6],
        base: 0,
        counters: vec![0],
        callers: Vec::with_capacity(64),
        copies: vec![0],
        points: vec![0, 26],
    };
    let actions = actions_within(steps, &mut machine, &instrs, &functions);
    println!("{actions} actions, {}", machine.copies[0]);
}
