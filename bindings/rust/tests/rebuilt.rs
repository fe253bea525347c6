//! Sheets of the oracle built anew by the methods of `Sheet`, what stands in the blocks from the last to the first: the
//! rows are the same, but for the order within a list of neighbours.
use drifthurdle::*;

mod support;

const C1: &str = "slots,1\r\nreg,0,0,0\r\nclass,0,1,0\r\nvalue,0,0\r\nblock,0,3,-,1\r\nop,0,def,0,c0,r0\r\nop,1,use,0,c0,s0\r\nedit,1,move,s0,r0,0\r\n";

/// The sheet so far, and every number that it handed out.
#[derive(Default)]
struct Built {
    sheet: Sheet,
    slots: Vec<Slot>,
    units: Vec<Unit>,
    regs: Vec<Reg>,
    classes: Vec<Class>,
    values: Vec<Value>,
    groups: Vec<ValueGroup>,
    blocks: Vec<Block>,
    insts: Vec<Inst>,
}

fn number(field: &str) -> usize {
    field.parse().unwrap()
}

/// The members of a list, looked up among the numbers handed out.
fn members<T: Copy>(of: &[T], fields: &[&str]) -> Vec<T> {
    fields.iter().map(|field| of[number(field)]).collect()
}

impl Built {
    fn place(&self, field: &str) -> Place {
        match field.split_at(1) {
            ("r", n) => self.regs[number(n)].into(),
            (_, n) => self.slots[number(n)].into(),
        }
    }

    fn machine(&mut self, row: &[&str]) {
        match row {
            ["slots", count] => {
                self.slots = (0..number(count)).map(|_| self.sheet.slot()).collect();
                self.units = (0..128).map(|_| self.sheet.unit()).collect();
            }
            ["reg", _, "0", units @ ..] => self.regs.push(self.sheet.reg(&members(&self.units, units))),
            ["reg", _, _, units @ ..] => self.regs.push(self.sheet.memory_reg(&members(&self.units, units))),
            ["class", _, "0", regs @ ..] => self.classes.push(self.sheet.class(&members(&self.regs, regs))),
            ["class", _, _, regs @ ..] => {
                self.classes.push(self.sheet.class_with_slots(&members(&self.regs, regs)));
            }
            ["group", _, class, regs @ ..] => {
                self.sheet.group(self.classes[number(class)], &members(&self.regs, regs));
            }
            _ => {}
        }
    }

    fn values_and_blocks(&mut self, row: &[&str]) {
        match row {
            ["value", _, "-"] => self.values.push(self.sheet.value(None)),
            ["value", _, home] => self.values.push(self.sheet.value(self.slots[number(home)])),
            ["vgroup", _, values @ ..] => {
                self.groups.push(self.sheet.value_group(&members(&self.values, values)));
            }
            ["block", _, insts, _, "0"] => self.blocks.push(self.sheet.block(number(insts) as u32)),
            ["block", _, insts, _, _] => self.blocks.push(self.sheet.entry(number(insts) as u32)),
            _ => {}
        }
    }

    fn edges(&mut self, row: &[&str]) {
        match row {
            ["block", block, _, idom, _] if *idom != "-" => {
                self.sheet.set_idom(self.blocks[number(block)], self.blocks[number(idom)]);
            }
            ["succ", block, to @ ..] => {
                to.iter().for_each(|to| self.sheet.edge(self.blocks[number(block)], self.blocks[number(to)]));
            }
            _ => {}
        }
    }

    fn op_kind(&self, kind: &str, subject: &str) -> OpKind {
        match kind {
            "def" => OpKind::Def(self.values[number(subject)]),
            "use" => OpKind::Use(self.values[number(subject)]),
            "early" => OpKind::Early(self.values[number(subject)]),
            "defg" => OpKind::DefGroup(self.groups[number(subject)]),
            "useg" => OpKind::UseGroup(self.groups[number(subject)]),
            "earlyg" => OpKind::EarlyGroup(self.groups[number(subject)]),
            _ => OpKind::Fixed,
        }
    }

    fn constraint(&self, field: &str) -> Constraint {
        match field.split_at(1) {
            ("c", n) => self.classes[number(n)].into(),
            ("f", n) => Constraint::Fixed(self.regs[number(n)]),
            (_, n) => Constraint::Reuse(number(n)),
        }
    }

    fn edit(&self, kind: &str, to: &str, from: &str, value: &str) -> Edit {
        match kind {
            "move" => Edit::move_to(self.place(to), self.place(from), self.values[number(value)]),
            "remat" => Edit::remat_to(self.place(to), self.values[number(value)]),
            "espill" => {
                Edit::EmergencySpill { to: self.slots[number(&to[1..])], from: self.regs[number(&from[1..])] }
            }
            "ereload" => Edit::EmergencyReload {
                to: self.regs[number(&to[1..])],
                from: self.slots[number(&from[1..])],
            },
            _ => Edit::None,
        }
    }

    fn contents(&mut self, row: &[&str]) {
        match *row {
            ["param", block, value, place] => {
                let place = self.place(place);
                self.sheet.param(self.blocks[number(block)], self.values[number(value)], place);
            }
            ["op", inst, kind, subject, constraint, place] => {
                let (constraint, place) = (self.constraint(constraint), self.place(place));
                self.sheet.op(self.insts[number(inst)], self.op_kind(kind, subject), constraint, place);
            }
            ["clob", inst, ref units @ ..] => {
                self.sheet.clobber(self.insts[number(inst)], &members(&self.units, units));
            }
            ["edit", inst, kind, to, from, value] => {
                self.sheet.edit(self.insts[number(inst)], self.edit(kind, to, from, value));
            }
            _ => {}
        }
    }
}

fn rows(text: &str) -> Vec<Vec<&str>> {
    text.trim_end().split("\r\n").map(|row| row.split(',').collect()).collect()
}

/// The sheet of these rows, built anew.
fn rebuilt(text: &str) -> Sheet {
    let (mut built, rows) = (Built::default(), rows(text));
    rows.iter().for_each(|row| built.machine(row));
    rows.iter().for_each(|row| built.values_and_blocks(row));
    built.insts = built.blocks.iter().flat_map(|block| built.sheet.insts(*block)).collect();
    let mut turned: Vec<&[Vec<&str>]> = rows.chunk_by(|row, next| row[..2] == next[..2]).collect();
    turned.reverse();
    turned.iter().flat_map(|rows| rows.iter()).for_each(|row| built.contents(row));
    rows.iter().rev().for_each(|row| built.edges(row));
    built.sheet
}

/// The rows, with the lists of neighbours in order.
fn sorted(text: &str) -> Vec<Vec<&str>> {
    let mut rows = rows(text);
    rows.iter_mut().filter(|row| matches!(row[0], "succ" | "pred")).for_each(|row| row[2..].sort_unstable());
    rows
}

#[test]
fn built_anew() {
    assert_eq!(rebuilt(C1).to_string(), C1);
    let mut out = vec![0; 1 << 17];
    support::each_file(|name, cases| {
        let mut sheets = 0;
        for (_, bytes) in cases {
            if clean(bytes, Level::Off, false, &mut out).is_ok() {
                let text = std::str::from_utf8(bytes).unwrap();
                assert_eq!(sorted(&rebuilt(text).to_string()), sorted(text));
                sheets += 1;
            }
        }
        println!("{name}: {sheets} sheets built anew");
    });
}
