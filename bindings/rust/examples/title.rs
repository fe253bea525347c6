//! A toy compiler's function, cleaned: `cargo run --example title`.
//!
//! The function reads a person's name and job title, corrects the title if it is misspelt, prints both and signs
//! with the name. Its registers were given out by hand. It is said to a [`Sheet`], cleaned at level 2 with the sweep,
//! changed as the answer says, and printed before and after.
use drifthurdle::{
    clean_sheet, Answer, Change, Class, Edit, Inst, Level, OpKind, Place, Refusal, Reg, Sheet, Slot, Unit,
};

const REGS: usize = 3;
const SLOTS: usize = 2;

/// Where the toy compiler keeps a variable.
#[derive(Clone, Copy)]
enum At {
    R(usize),
    S(usize),
}
use At::{R, S};

#[derive(Clone)]
struct Operand {
    defines: bool,
    variable: usize,
    at: At,
}

#[derive(Clone)]
struct Instruction {
    verb: &'static str,
    operands: Vec<Operand>,
    is_call: bool,
}

#[derive(Clone)]
struct BasicBlock {
    name: &'static str,
    instructions: Vec<Instruction>,
    idom: Option<usize>,
    next: Vec<usize>,
}

/// A copy that the allocator put before an instruction, counted over all blocks.
#[derive(Clone)]
struct Copying {
    before: usize,
    to: At,
    from: At,
    variable: usize,
}

#[derive(Clone)]
struct Function {
    variables: Vec<(&'static str, Option<usize>)>,
    blocks: Vec<BasicBlock>,
    copies: Vec<Option<Copying>>,
}

const NAME: usize = 0;
const TITLE: usize = 1;
const CORRECTED: usize = 2;

fn def(variable: usize, at: At) -> Operand {
    Operand { defines: true, variable, at }
}

fn uses(variable: usize, at: At) -> Operand {
    Operand { defines: false, variable, at }
}

fn inst(verb: &'static str, operands: &[Operand]) -> Instruction {
    Instruction { verb, operands: operands.to_vec(), is_call: false }
}

fn call(verb: &'static str, operands: &[Operand]) -> Instruction {
    Instruction { is_call: true, ..inst(verb, operands) }
}

fn block(
    name: &'static str,
    idom: Option<usize>,
    next: &[usize],
    instructions: &[Instruction],
) -> BasicBlock {
    BasicBlock { name, instructions: instructions.to_vec(), idom, next: next.to_vec() }
}

fn copying(before: usize, to: At, from: At, variable: usize) -> Option<Copying> {
    Some(Copying { before, to, from, variable })
}

/// The function as the allocator left it.
fn allocated() -> Function {
    let start = [
        inst("read_name", &[def(NAME, R(0))]),
        inst("read_title", &[def(TITLE, R(1))]),
        inst("branch_if_misspelt", &[uses(TITLE, R(1))]),
    ];
    let correct = [
        inst("correct", &[def(CORRECTED, R(1)), uses(TITLE, S(1))]),
        call("print", &[uses(NAME, R(2)), uses(CORRECTED, R(1))]),
    ];
    let keep = [call("print", &[uses(NAME, R(0)), uses(TITLE, R(1))])];
    let end = [inst("sign", &[uses(NAME, S(0))]), inst("return", &[])];
    Function {
        variables: vec![("name", Some(0)), ("title", Some(1)), ("corrected", None)],
        blocks: vec![
            block("start", None, &[1, 2], &start),
            block("correct", Some(0), &[3], &correct),
            block("keep", Some(0), &[3], &keep),
            block("end", Some(0), &[], &end),
        ],
        copies: vec![
            copying(1, S(0), R(0), NAME),
            copying(2, S(1), R(1), TITLE),
            copying(4, R(2), S(0), NAME),
            copying(5, R(1), S(1), TITLE),
        ],
    }
}

/// The numbers that the sheet handed out for the machine.
struct Machine {
    units: Vec<Unit>,
    regs: Vec<Reg>,
    slots: Vec<Slot>,
    class: Class,
}

impl Machine {
    fn new(sheet: &mut Sheet) -> Self {
        let units: Vec<Unit> = (0..REGS).map(|_| sheet.unit()).collect();
        let regs: Vec<Reg> = units.iter().map(|unit| sheet.reg(&[*unit])).collect();
        let slots = (0..SLOTS).map(|_| sheet.slot()).collect();
        let class = sheet.class_with_slots(&regs);
        Self { units, regs, slots, class }
    }

    fn place(&self, at: At) -> Place {
        match at {
            R(number) => self.regs[number].into(),
            S(number) => self.slots[number].into(),
        }
    }
}

/// The function as a sheet.
fn sheet_of(function: &Function) -> Sheet {
    let mut sheet = Sheet::new();
    let machine = Machine::new(&mut sheet);
    let values: Vec<_> = function
        .variables
        .iter()
        .map(|(_, home)| sheet.value(home.map(|slot| machine.slots[slot])))
        .collect();
    let insts = say_blocks(&mut sheet, function);
    let instructions = function.blocks.iter().flat_map(|block| &block.instructions);
    for (inst, instruction) in insts.iter().zip(instructions) {
        for operand in &instruction.operands {
            let value = values[operand.variable];
            let kind = if operand.defines { OpKind::Def(value) } else { OpKind::Use(value) };
            sheet.op(*inst, kind, machine.class, machine.place(operand.at));
        }
        if instruction.is_call {
            sheet.clobber(*inst, &machine.units);
        }
    }
    for copy in function.copies.iter().flatten() {
        let edit = Edit::move_to(machine.place(copy.to), machine.place(copy.from), values[copy.variable]);
        sheet.edit(insts[copy.before], edit);
    }
    sheet
}

/// Says the blocks and their edges; returns all instructions.
fn say_blocks(sheet: &mut Sheet, function: &Function) -> Vec<Inst> {
    let mut blocks = vec![];
    for (number, block) in function.blocks.iter().enumerate() {
        let count = block.instructions.len() as u32;
        blocks.push(if number == 0 { sheet.entry(count) } else { sheet.block(count) });
    }
    for (from, block) in function.blocks.iter().enumerate() {
        for to in &block.next {
            sheet.edge(blocks[from], blocks[*to]);
        }
        if let Some(idom) = block.idom {
            sheet.set_idom(blocks[from], blocks[idom]);
        }
    }
    blocks.iter().flat_map(|block| sheet.insts(*block)).collect()
}

/// Changes the function as the answer says.
fn apply(function: &mut Function, answer: &Answer) {
    for change in answer.changes() {
        match change {
            Change::Fold { inst, operand, reg } => {
                let mut instructions = function.blocks.iter_mut().flat_map(|block| &mut block.instructions);
                if let Some(instruction) = instructions.nth(inst.index()) {
                    instruction.operands[operand].at = R(reg.index());
                }
            }
            Change::Source { edit, reg } => {
                if let Some(copy) = &mut function.copies[edit.index()] {
                    copy.from = R(reg.index());
                }
            }
            Change::Removed { edit } => function.copies[edit.index()] = None,
        }
    }
}

fn at_text(at: At) -> String {
    match at {
        R(number) => format!("r{number}"),
        S(number) => format!("s{number}"),
    }
}

/// An instruction as the listing has it.
fn text(function: &Function, instruction: &Instruction) -> String {
    let (mut before, mut after) = (String::new(), String::new());
    for operand in &instruction.operands {
        let named = format!("{}@{}", function.variables[operand.variable].0, at_text(operand.at));
        if operand.defines {
            before = format!("{named} = ");
        } else {
            after += &format!(" {named}");
        }
    }
    format!("  {before}{}{after}", instruction.verb)
}

/// One line for each block, copy and instruction; that of a removed copy is blank.
fn listing(function: &Function, original: &Function) -> Vec<String> {
    let mut lines = vec![];
    let mut number = 0;
    for block in &function.blocks {
        lines.push(format!("{}:", block.name));
        for instruction in &block.instructions {
            for (copy, as_it_was) in function.copies.iter().zip(&original.copies) {
                if as_it_was.as_ref().is_some_and(|copy| copy.before == number) {
                    lines.push(copy.as_ref().map_or(String::new(), |copy| {
                        let name = function.variables[copy.variable].0;
                        format!("  {} <- {} ({name})", at_text(copy.to), at_text(copy.from))
                    }));
                }
            }
            lines.push(text(function, instruction));
            number += 1;
        }
    }
    lines
}

fn main() -> Result<(), Refusal> {
    let before = allocated();
    let answer = clean_sheet(&sheet_of(&before), Level::Forward, true)?;
    let mut after = before.clone();
    apply(&mut after, &answer);

    for (left, right) in listing(&before, &before).iter().zip(listing(&after, &before)) {
        println!("{}", format!("{left:<34}| {right}").trim_end());
    }
    println!();
    for (name, count) in answer.counts.named() {
        if count > 0 {
            println!("{count} {name}");
        }
    }
    Ok(())
}
