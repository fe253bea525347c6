//! A sheet by types: the rows' order whatever the order of the calls, every kind of row, and what is refused.
use drifthurdle::*;

/// A machine of two registers of one unit and one of both, with the numbers handed out.
struct Small {
    sheet: Sheet,
    slot: Slot,
    units: [Unit; 2],
    regs: [Reg; 3],
    class: Class,
}

fn small() -> Small {
    let mut sheet = Sheet::new();
    let slot = sheet.slot();
    let units = [sheet.unit(), sheet.unit()];
    let regs = [sheet.reg(&units[..1]), sheet.reg(&units[1..]), sheet.memory_reg(&units)];
    let class = sheet.class_with_slots(&regs);
    Small { sheet, slot, units, regs, class }
}

const MACHINE: &str = "slots,1\r\nreg,0,0,0\r\nreg,1,0,1\r\nreg,2,1,0,1\r\nclass,0,1,0,1,2\r\n";

#[test]
fn every_kind_of_row() {
    let Small { mut sheet, slot, units, regs, class } = small();
    let pairs = sheet.class(&regs[..1]);
    sheet.group(pairs, &regs[..2]);
    let (v, w) = (sheet.value(slot), sheet.value(None));
    let both = sheet.value_group(&[v, w]);
    let (first, second) = (sheet.entry(2), sheet.block(1));
    sheet.edge(first, second);
    sheet.set_idom(second, first);
    sheet.param(first, w, regs[1]);
    let [i, j] = [0, 1].map(|k| sheet.insts(first).nth(k).unwrap());
    let k = sheet.insts(second).next().unwrap();
    assert_eq!(sheet.op(i, OpKind::DefGroup(both), pairs, regs[0]), 0);
    assert_eq!(sheet.op(i, OpKind::EarlyGroup(both), pairs, regs[0]), 1);
    sheet.op(j, OpKind::UseGroup(both), pairs, regs[0]);
    sheet.op(j, OpKind::Use(v), class, slot);
    sheet.op(j, OpKind::Def(w), Constraint::Reuse(1), slot);
    sheet.op(k, OpKind::Early(w), class, regs[1]);
    sheet.op(k, OpKind::Fixed, Constraint::Fixed(regs[2]), regs[2]);
    sheet.clobber(k, &units);
    sheet.edit(i, Edit::move_to(slot, regs[0], v));
    sheet.edit(i, Edit::remat_to(regs[1], w));
    sheet.edit(j, Edit::EmergencySpill { to: slot, from: regs[0] });
    sheet.edit(j, Edit::EmergencyReload { to: regs[0], from: slot });
    sheet.edit(k, Edit::None);
    let rows = MACHINE.to_owned()
        + "class,1,0,0\r\ngroup,0,1,0,1\r\nvalue,0,0\r\nvalue,1,-\r\nvgroup,0,0,1\r\n\
           block,0,2,-,1\r\nblock,1,1,0,0\r\nsucc,0,1\r\npred,1,0\r\nparam,0,1,r1\r\n\
           op,0,defg,0,c1,r0\r\nop,0,earlyg,0,c1,r0\r\nop,1,useg,0,c1,r0\r\nop,1,use,0,c0,s0\r\nop,1,def,1,u1,s0\r\n\
           op,2,early,1,c0,r1\r\nop,2,fixed,-,f2,r2\r\nclob,2,0,1\r\n\
           edit,0,move,s0,r0,0\r\nedit,0,remat,r1,-,1\r\nedit,1,espill,s0,r0,-\r\nedit,1,ereload,r0,s0,-\r\n\
           edit,2,none,-,-,-\r\n";
    assert_eq!(sheet.to_string(), rows);
    assert_eq!(Sheet::parse(rows.as_bytes()), Some(sheet));
}

/// The contents of three blocks, said in the order of `turns`.
fn in_turns(turns: [usize; 3]) -> (Sheet, [Option<EditNumber>; 3]) {
    let Small { mut sheet, slot, units, regs, class } = small();
    let (v, w) = (sheet.value(slot), sheet.value(None));
    let blocks = [sheet.entry(1), sheet.block(1), sheet.block(1)];
    let mut numbers = [None; 3];
    for turn in turns {
        let inst = sheet.insts(blocks[turn]).next().unwrap();
        if turn > 0 {
            sheet.edge(blocks[0], blocks[turn]);
            sheet.edge(blocks[0], blocks[turn]);
            sheet.set_idom(blocks[turn], blocks[0]);
        }
        sheet.clobber(inst, &units[1..]);
        sheet.clobber(inst, &units[1..]);
        numbers[turn] = Some(sheet.edit(inst, Edit::move_to(regs[0], slot, v)));
        sheet.op(inst, OpKind::Use(v), class, slot);
        sheet.op(inst, OpKind::Use(v), class, regs[0]);
        sheet.param(blocks[turn], w, regs[1]);
    }
    (sheet, numbers)
}

#[test]
fn calls_in_any_order() {
    let (sheet, _) = in_turns([0, 1, 2]);
    let (turned, numbers) = in_turns([2, 0, 1]);
    assert_eq!(turned.to_string().replace("succ,0,2,1", "succ,0,1,2"), sheet.to_string());
    let answer = clean_sheet(&turned, Level::Forward, false).unwrap();
    assert_eq!(answer.edits.iter().map(|edited| Some(edited.number)).collect::<Vec<_>>(), numbers);
    let changes: Vec<_> = answer.changes().filter(|change| !matches!(change, Change::Fold { .. })).collect();
    assert_eq!(changes, [1, 2].map(|block| Change::Removed { edit: numbers[block].unwrap() }));
    assert_eq!(answer.counts.optimized_redundant_reload, 2);
}

#[test]
fn outcomes() {
    let Small { mut sheet, slot, regs, class, .. } = small();
    let (v, w) = (sheet.value(slot), sheet.value(None));
    let block = sheet.entry(2);
    let [i, j] = [0, 1].map(|k| sheet.insts(block).nth(k).unwrap());
    sheet.op(i, OpKind::Def(v), class, regs[0]);
    let edits = [
        sheet.edit(j, Edit::move_to(slot, regs[0], v)),
        sheet.edit(j, Edit::move_to(regs[1], slot, v)),
        sheet.edit(j, Edit::move_to(regs[0], regs[1], v)),
        sheet.edit(j, Edit::None),
    ];
    sheet.op(j, OpKind::Use(w), class, regs[1]);
    let answer = clean_sheet(&sheet, Level::Local, false).unwrap();
    let outcomes: Vec<_> = answer.edits.iter().map(|edited| (edited.number, edited.outcome)).collect();
    let expected = [Outcome::Kept, Outcome::Changed(regs[0]), Outcome::Removed, Outcome::Kept];
    assert_eq!(outcomes, edits.into_iter().zip(expected).collect::<Vec<_>>());
    assert_eq!(answer.edits[1].after(), Edit::move_to(regs[1], regs[0], v));
    assert_eq!(answer.edits[2].after(), Edit::None);
    assert_eq!(answer.counts.named()[5], ("optimized_reload_to_move", 1));
}

#[test]
fn a_larger_buffer() {
    let mut sheet = Sheet::new();
    sheet.entry(1);
    let answer = clean_sheet(&sheet, Level::Local, true).unwrap();
    assert!(answer.to_bytes().len() > sheet.to_bytes().len());
    assert_eq!(answer, Answer { folds: vec![], edits: vec![], counts: Counts::default() });
}

#[test]
fn what_the_builder_cannot_prevent() {
    let refused = |sheet: &Sheet| clean_sheet(sheet, Level::Global, true).unwrap_err();
    assert_eq!(refused(&Sheet::new()), Refusal::NoEntry);

    let mut sheet = Sheet::new();
    sheet.reg(&[]);
    assert_eq!(refused(&sheet), Refusal::Rows);

    let mut sheet = Sheet::new();
    let slots: Vec<Slot> = (0..65).map(|_| sheet.slot()).collect();
    assert_eq!(slots[64].index(), 64);
    assert_eq!(refused(&sheet), Refusal::Limits);

    let mut sheet = Sheet::new();
    let huge = [sheet.entry(u32::MAX), sheet.block(u32::MAX)];
    assert_eq!(sheet.insts(huge[0]).next_back().map(Inst::index), Some(u32::MAX as usize - 1));
    assert_eq!(sheet.insts(huge[1]).next(), None);
    assert_eq!(refused(&sheet), Refusal::Rows);
}

#[test]
fn numbers_of_another_sheet() {
    let other = small();
    let mut sheet = Sheet::new();
    let (mut many, mut block) = (Sheet::new(), sheet.entry(1));
    (0..9).for_each(|_| block = many.block(1));
    let inst = many.insts(block).next().unwrap();
    assert_eq!(sheet.insts(block).next(), None);
    sheet.set_idom(block, block);
    assert!(clean_sheet(&sheet, Level::Global, true).is_ok());
    sheet.clobber(inst, &other.units);
    sheet.edge(block, block);
    assert_eq!(clean_sheet(&sheet, Level::Global, true), Err(Refusal::Names));
}

#[test]
fn a_refusal_names_the_block() {
    let Small { mut sheet, .. } = small();
    sheet.value(None);
    let blocks = [sheet.entry(1), sheet.block(1), sheet.block(0)];
    sheet.edge(blocks[0], blocks[1]);
    let refusal = clean_sheet(&sheet, Level::Off, false).unwrap_err();
    assert_eq!((refusal, refusal.block(&sheet)), (Refusal::Empty(9), Some(blocks[2])));
    assert_eq!(Refusal::Room.block(&sheet), None);
    assert_eq!(Refusal::Empty(6).block(&sheet), None);
    assert_eq!(Refusal::Empty(10).block(&sheet), None);
}

#[test]
fn no_sheet() {
    let broken =
        ["", "slots,0", "slots,0\n", "slots,+1\r\n", "slots,01\r\n", "block,0,1,-,1\r\n", "slots,0\r\n\r\n"];
    for text in broken {
        assert_eq!(Sheet::parse(text.as_bytes()), None, "{text:?}");
    }
    assert_eq!(Sheet::parse(b"slots,0\r\nblock,0,2,-,1\r\nedit,1,none,-,-,-\r\nedit,0,none,-,-,-\r\n"), None);
    assert_eq!(Sheet::parse(b"\xff\r\n"), None);
}

#[test]
fn no_answer() {
    let Small { mut sheet, .. } = small();
    let block = sheet.entry(1);
    let inst = sheet.insts(block).next().unwrap();
    sheet.edit(inst, Edit::None);
    let (edit, count) = ("edit,0,none,-,-,-\r\n", "count,0,0,0,0,0,0,0,0,0\r\n");
    assert!(Answer::read(&sheet, format!("{edit}{count}").as_bytes()).is_some());
    for text in [count, edit, &format!("{edit}{edit}{count}"), &format!("fold,0,0,s0\r\n{edit}{count}")] {
        assert_eq!(Answer::read(&sheet, text.as_bytes()), None, "{text:?}");
    }
}
