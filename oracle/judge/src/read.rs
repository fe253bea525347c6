//! A sheet's bytes to its rows, or refusal 1. What the rows mean is left to accept.rs.

use crate::requests;
use crate::sheet::*;

/// The rows of a sheet, or the first thing that is broken (refusal 1).
pub fn read(bytes: &[u8]) -> Result<Sheet, String> {
    if bytes.len() > MAX_SHEET {
        return Err("over 65,536 bytes".into());
    }
    let mut sheet = Sheet::default();
    let mut rest = bytes;
    let mut fields: Vec<&[u8]> = vec![];
    let mut last_rank = None;
    while !rest.is_empty() {
        let (row, after) = next_row(rest).ok_or("no CR LF at the end")?;
        rest = after;
        fields.clear();
        fields.extend(row.split(|&c| c == b','));
        let rank = kind_rank(fields[0]).ok_or("no such kind of row")?;
        match last_rank {
            None if rank > 0 => return Err("no slots row".into()),
            Some(0) if rank == 0 => return Err("slots twice".into()),
            Some(last) if rank < last => return Err("kinds out of order".into()),
            _ => last_rank = Some(rank),
        }
        read_row(&mut sheet, &fields)
            .ok_or_else(|| format!("row {}", String::from_utf8_lossy(fields[0])))?;
    }
    match last_rank {
        Some(_) => Ok(sheet),
        None => Err("no slots row".into()),
    }
}

/// The first row without its end, and what follows. A row ends at the first LF, and
/// only if CR stands before it: no field may hold an LF.
fn next_row(rest: &[u8]) -> Option<(&[u8], &[u8])> {
    let lf = rest.iter().position(|&c| c == b'\n')?;
    let end = lf.checked_sub(1)?;
    (rest[end] == b'\r').then_some((&rest[..end], &rest[lf + 1..]))
}

/// Position of a kind in the paper's order. A `rin` stands where an `iremat` may; whose
/// it is, its row tells.
fn kind_rank(kind: &[u8]) -> Option<usize> {
    const ORDER: [&[u8]; 14] = [
        b"slots", b"reg", b"class", b"group", b"value", b"vgroup", b"iremat", b"block", b"succ",
        b"pred", b"param", b"op", b"clob", b"edit",
    ];
    let kind = if kind == b"rin" { b"iremat" } else { kind };
    let rank = ORDER.iter().position(|&k| k == kind)?;
    (kind != b"iremat" || requests::recipes()).then_some(rank)
}

// ---- fields ------------------------------------------------------------------------

/// Decimal, no leading zero, one to five digits.
fn number(f: &[u8]) -> Option<u32> {
    if f.is_empty() || f.len() > 5 || (f.len() > 1 && f[0] == b'0') {
        return None;
    }
    let mut n = 0;
    for &c in f {
        if !c.is_ascii_digit() {
            return None;
        }
        n = n * 10 + (c - b'0') as u32;
    }
    Some(n)
}

fn flag(f: &[u8]) -> Option<bool> {
    match f {
        b"0" => Some(false),
        b"1" => Some(true),
        _ => None,
    }
}

fn number_or_dash(f: &[u8]) -> Option<Option<u32>> {
    if f == b"-" { Some(None) } else { number(f).map(Some) }
}

fn dash(f: &[u8]) -> Option<()> {
    (f == b"-").then_some(())
}

fn place(f: &[u8]) -> Option<Place> {
    match f.split_first()? {
        (b'r', n) => number(n).map(Place::Reg),
        (b's', n) => number(n).map(Place::Slot),
        _ => None,
    }
}

fn constraint(f: &[u8]) -> Option<Con> {
    match f.split_first()? {
        (b'c', n) => number(n).map(Con::Class),
        (b'f', n) => number(n).map(Con::Fixed),
        (b'u', n) => number(n).map(Con::Reuse),
        _ => None,
    }
}

fn op_kind(f: &[u8]) -> Option<OpKind> {
    OpKind::ALL.into_iter().find(|k| k.name().as_bytes() == f)
}

/// A list that may be empty.
fn numbers(f: &[&[u8]]) -> Option<Vec<u32>> {
    f.iter().map(|x| number(x)).collect()
}

/// A list with at least one member.
fn members(f: &[&[u8]]) -> Option<Vec<u32>> {
    if f.is_empty() { None } else { numbers(f) }
}

// ---- rows --------------------------------------------------------------------------

fn read_row(sheet: &mut Sheet, f: &[&[u8]]) -> Option<()> {
    match (f[0], &f[1..]) {
        (b"slots", [n]) => sheet.slots = number(n)?,
        (b"reg", [r, memory, units @ ..]) => {
            counts(r, sheet.regs.len())?;
            sheet.regs.push(Reg { memory: flag(memory)?, units: members(units)? });
        }
        (b"class", [c, slots, regs @ ..]) => {
            counts(c, sheet.classes.len())?;
            sheet.classes.push(Class { slots: flag(slots)?, regs: numbers(regs)? });
        }
        (b"group", [g, class, regs @ ..]) => {
            counts(g, sheet.groups.len())?;
            sheet.groups.push(Group { class: number(class)?, regs: members(regs)? });
        }
        (b"value", [v, home]) => {
            counts(v, sheet.homes.len())?;
            sheet.homes.push(number_or_dash(home)?);
        }
        (b"vgroup", [g, values @ ..]) => {
            counts(g, sheet.vgroups.len())?;
            sheet.vgroups.push(members(values)?);
        }
        (b"iremat", [value, con, overlap]) => {
            let value = number(value)?;
            if sheet.recipes.last().is_some_and(|last| last.value >= value) {
                return None;
            }
            let (con, overlap) = (constraint(con)?, flag(overlap)?);
            sheet.recipes.push(Recipe { value, con, overlap, inputs: vec![] });
        }
        (b"rin", [value, kind, subject, con]) => {
            let value = number(value)?;
            let recipe = sheet.recipes.last_mut().filter(|last| last.value == value)?;
            let kind = op_kind(kind)?;
            let (subject, con) = (subject_of(kind, subject)?, constraint(con)?);
            recipe.inputs.push(Rin { kind, subject, con });
        }
        (b"block", [b, insts, idom, entry]) => {
            counts(b, sheet.blocks.len())?;
            let (insts, idom, entry) = (number(insts)?, number_or_dash(idom)?, flag(entry)?);
            sheet.blocks.push(Block { insts, idom, entry });
        }
        (b"succ", [b, list @ ..]) => push_rising(&mut sheet.succs, b, list)?,
        (b"pred", [b, list @ ..]) => push_rising(&mut sheet.preds, b, list)?,
        (b"clob", [i, list @ ..]) => push_rising(&mut sheet.clobs, i, list)?,
        (b"param", [block, value, at]) => {
            let p = Param { block: number(block)?, value: number(value)?, place: place(at)? };
            never_falls(sheet.params.last().map(|last| last.block), p.block)?;
            sheet.params.push(p);
        }
        (b"op", [inst, kind, subject, con, at]) => {
            let op = read_op(inst, op_kind(kind)?, subject, con, at)?;
            never_falls(sheet.ops.last().map(|last| last.inst), op.inst)?;
            sheet.ops.push(op);
        }
        (b"edit", [inst, b"irem", to, from, value, inputs @ ..]) if requests::recipes() => {
            dash(from)?;
            let inputs: Vec<Place> = inputs.iter().map(|x| place(x)).collect::<Option<_>>()?;
            let (to, value, inputs) = (place(to)?, number(value)?, Inputs::new(&inputs));
            sheet.edits.push((number(inst)?, Edit::Irem { to, value, inputs }));
        }
        (b"edit", [inst, kind, to, from, value]) => {
            sheet.edits.push((number(inst)?, read_edit(kind, to, from, value)?));
        }
        _ => return None,
    }
    Some(())
}

fn counts(field: &[u8], next: usize) -> Option<()> {
    (number(field)? as usize == next).then_some(())
}

fn never_falls(last: Option<u32>, next: u32) -> Option<()> {
    (last.is_none_or(|l| l <= next)).then_some(())
}

fn push_rising(rows: &mut Vec<(u32, Vec<u32>)>, first: &[u8], list: &[&[u8]]) -> Option<()> {
    let n = number(first)?;
    if rows.last().is_some_and(|last| last.0 >= n) {
        return None;
    }
    rows.push((n, members(list)?));
    Some(())
}

fn read_op(inst: &[u8], kind: OpKind, subject: &[u8], con: &[u8], at: &[u8]) -> Option<Op> {
    let subject = subject_of(kind, subject)?;
    Some(Op { inst: number(inst)?, kind, subject, con: constraint(con)?, place: place(at)? })
}

fn subject_of(kind: OpKind, field: &[u8]) -> Option<u32> {
    if kind == OpKind::Fixed { dash(field).map(|_| 0) } else { number(field) }
}

fn read_edit(kind: &[u8], to: &[u8], from: &[u8], value: &[u8]) -> Option<Edit> {
    Some(match kind {
        b"move" => Edit::Move { to: place(to)?, from: place(from)?, value: number(value)? },
        b"remat" => {
            dash(from)?;
            Edit::Remat { to: place(to)?, value: number(value)? }
        }
        b"espill" => {
            dash(value)?;
            Edit::Espill { to: place(to)?, from: place(from)? }
        }
        b"ereload" => {
            dash(value)?;
            Edit::Ereload { to: place(to)?, from: place(from)? }
        }
        b"none" => {
            dash(to)?;
            dash(from)?;
            dash(value)?;
            Edit::None
        }
        _ => return None,
    })
}
