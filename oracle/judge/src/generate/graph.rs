//! The blocks of a random sheet: graphs that the block rules allow, and idoms.

use super::{AT_LIMITS, Gen, Shape};
use crate::sheet::*;

/// Successors and entry flags, by block.
type Graph = (Vec<Vec<u32>>, Vec<bool>);

impl Gen<'_> {
    pub(super) fn blocks(&mut self, s: &mut Sheet, shape: &Shape, which: usize) {
        let n = self.between(shape.blocks);
        let (succs, entry) = if self.rng.pct(55) { self.structured(n) } else { self.wild(n) };
        let n = succs.len();
        let mut preds: Vec<Vec<u32>> = vec![vec![]; n];
        for (b, l) in succs.iter().enumerate() {
            for &x in l {
                preds[x as usize].push(b as u32);
            }
        }
        let idom = self.idoms(&preds, &entry);
        let mut left = MAX_INSTS;
        for b in 0..n {
            let most = left - (n - b - 1);
            let k = if which == AT_LIMITS {
                8
            } else {
                let k = self.between(shape.per_block);
                if self.rng.pct(3) { k * 3 } else { k }
            }
            .clamp(1, most);
            left -= k;
            s.blocks.push(Block { insts: k as u32, idom: idom[b], entry: entry[b] });
        }
        for b in 0..n {
            let mut l = succs[b].clone();
            if self.rng.pct(50) {
                self.rng.shuffle(&mut l);
            }
            if !l.is_empty() {
                s.succs.push((b as u32, l));
            }
            let mut l = preds[b].clone();
            if self.rng.pct(50) {
                self.rng.shuffle(&mut l);
            }
            if !l.is_empty() {
                s.preds.push((b as u32, l));
            }
        }
    }

    /// Straight lines, choices and loops, in a sensible order.
    fn structured(&mut self, n: usize) -> Graph {
        let mut succs: Vec<Vec<u32>> = vec![vec![]];
        let mut entry = vec![true];
        let mut cur = 0usize;
        fn add(succs: &mut Vec<Vec<u32>>, entry: &mut Vec<bool>, from: &[usize]) -> usize {
            let b = succs.len();
            succs.push(vec![]);
            entry.push(false);
            for &f in from {
                succs[f].push(b as u32);
            }
            b
        }
        // Open loops: the header, which waits for its back edge.
        let mut loops: Vec<usize> = vec![];
        while succs.len() < n {
            let left = n - succs.len();
            match self.rng.weighted(&[25, 30, 25, 20, 4, 3]) {
                0 => cur = add(&mut succs, &mut entry, &[cur]),
                // A choice of several arms that meet again.
                1 if left >= 3 => {
                    let arms = self.rng.range(2, 3.min(left - 1));
                    let mut ends = vec![];
                    for _ in 0..arms {
                        ends.push(add(&mut succs, &mut entry, &[cur]));
                    }
                    // An arm may leave for good.
                    if ends.len() > 2 && self.rng.pct(30) {
                        ends.pop();
                    }
                    cur = add(&mut succs, &mut entry, &ends);
                }
                // A loop's header.
                2 if left >= 3 => {
                    cur = add(&mut succs, &mut entry, &[cur]);
                    loops.push(cur);
                    // The header's back edge makes it a join; it may then branch.
                    cur = add(&mut succs, &mut entry, &[cur]);
                }
                // Close the innermost loop: a branch to a latch and onward.
                3 if left >= 2 && !loops.is_empty() => {
                    let head = loops.pop().unwrap();
                    let latch = add(&mut succs, &mut entry, &[cur]);
                    succs[latch].push(head as u32);
                    cur = add(&mut succs, &mut entry, &[cur]);
                }
                // Another entry that joins here.
                4 if left >= 3 => {
                    let e = add(&mut succs, &mut entry, &[]);
                    entry[e] = true;
                    cur = add(&mut succs, &mut entry, &[cur, e]);
                }
                // An exit on the way.
                5 if left >= 2 => {
                    add(&mut succs, &mut entry, &[cur]);
                    cur = add(&mut succs, &mut entry, &[cur]);
                }
                _ => cur = add(&mut succs, &mut entry, &[cur]),
            }
        }
        // A loop that was never closed has a header with one predecessor: fine.
        // Now and then close it from the last block, so that nothing exits.
        if succs[cur].is_empty() && !loops.is_empty() && self.rng.pct(40) {
            let head = loops.pop().unwrap();
            if head != cur {
                succs[cur].push(head as u32);
            }
        }
        (succs, entry)
    }

    /// Any graph that the block rules allow.
    fn wild(&mut self, n: usize) -> Graph {
        for _ in 0..60 {
            if let Some(g) = self.try_wild(n) {
                return g;
            }
        }
        self.structured(n)
    }

    fn try_wild(&mut self, n: usize) -> Option<Graph> {
        #[derive(Clone, Copy, PartialEq)]
        enum In {
            Entry,
            Join,
            Single,
        }
        let mut into = vec![In::Single; n];
        for (b, k) in into.iter_mut().enumerate() {
            *k = match self.rng.weighted(&[6, 32, 62]) {
                0 => In::Entry,
                1 => In::Join,
                _ => In::Single,
            };
            if b == 0 && (*k == In::Single || self.rng.pct(80)) {
                *k = In::Entry;
            }
        }
        let mut succs: Vec<Vec<u32>> = vec![vec![]; n];
        // 0 branches, 1 jumps, 2 ends.
        let mut out: Vec<usize> = (0..n).map(|_| self.rng.weighted(&[50, 38, 12])).collect();
        for b in 1..n {
            if into[b] == In::Single {
                let mut who: Vec<usize> = (0..b).filter(|&p| out[p] == 0).collect();
                if who.is_empty() {
                    let p = self.rng.below(b);
                    out[p] = 0;
                    who.push(p);
                }
                // Mostly a near parent.
                let k = who.len();
                let p = if self.rng.pct(70) {
                    who[k - 1 - self.rng.below(k.min(3))]
                } else {
                    self.rng.pick(&who)
                };
                succs[p].push(b as u32);
            }
        }
        let joins: Vec<usize> = (0..n).filter(|&b| into[b] == In::Join).collect();
        let mut preds = vec![0usize; n];
        for b in 0..n {
            if out[b] == 1 && !joins.is_empty() {
                let near: Vec<usize> =
                    joins.iter().copied().filter(|&j| j.abs_diff(b) < 6).collect();
                let j = if near.is_empty() || self.rng.pct(25) {
                    self.rng.pick(&joins)
                } else {
                    self.rng.pick(&near)
                };
                succs[b].push(j as u32);
            }
        }
        let mut entry: Vec<bool> = into.iter().map(|&k| k == In::Entry).collect();
        for l in &succs {
            for &x in l {
                preds[x as usize] += 1;
            }
        }
        for &j in &joins {
            if preds[j] == 0 {
                entry[j] = true;
            } else if preds[j] == 1 {
                let p = succs.iter().position(|l| l.contains(&(j as u32))).unwrap();
                if p >= j {
                    // A second way in, from a block that ends.
                    let ends: Vec<usize> = (0..n).filter(|&b| succs[b].is_empty()).collect();
                    if ends.is_empty() {
                        return None;
                    }
                    let e = self.rng.pick(&ends);
                    succs[e].push(j as u32);
                    preds[j] += 1;
                }
            }
        }
        // Everything must be reached.
        for _ in 0..n {
            let mut seen = entry.clone();
            let mut work: Vec<usize> = (0..n).filter(|&b| seen[b]).collect();
            while let Some(b) = work.pop() {
                for &x in &succs[b] {
                    if !seen[x as usize] {
                        seen[x as usize] = true;
                        work.push(x as usize);
                    }
                }
            }
            if !seen.contains(&false) {
                return entry.contains(&true).then_some((succs, entry));
            }
            let lost: Vec<usize> = (0..n).filter(|&b| !seen[b] && into[b] == In::Join).collect();
            let ends: Vec<usize> = (0..n).filter(|&b| seen[b] && succs[b].is_empty()).collect();
            if lost.is_empty() || ends.is_empty() {
                return None;
            }
            let (e, j) = (self.rng.pick(&ends), self.rng.pick(&lost));
            succs[e].push(j as u32);
        }
        None
    }

    fn idoms(&mut self, preds: &[Vec<u32>], entry: &[bool]) -> Vec<Option<u32>> {
        let n = preds.len();
        match self.rng.weighted(&[60, 20, 8, 12]) {
            0 => true_idoms(preds, entry),
            // Any smaller number.
            1 => {
                (0..n)
                    .map(|b| {
                        if b == 0 || self.rng.pct(25) {
                            None
                        } else {
                            Some(self.rng.below(b) as u32)
                        }
                    })
                    .collect()
            }
            2 => vec![None; n],
            // A chain.
            _ => (0..n).map(|b| b.checked_sub(1).map(|d| d as u32)).collect(),
        }
    }
}

/// For each block the blocks that dominate it.
fn dominators(preds: &[Vec<u32>], entry: &[bool]) -> Vec<Vec<bool>> {
    let n = preds.len();
    let mut dom: Vec<Vec<bool>> = vec![vec![true; n]; n];
    loop {
        let mut changed = false;
        for b in 0..n {
            let known = |x: usize| preds[b].iter().all(|&p| dom[p as usize][x]);
            let new: Vec<bool> = (0..n).map(|x| x == b || (!entry[b] && known(x))).collect();
            changed |= new != dom[b];
            dom[b] = new;
        }
        if !changed {
            return dom;
        }
    }
}

/// The strict dominator with the most dominators of its own, if it is smaller.
fn true_idoms(preds: &[Vec<u32>], entry: &[bool]) -> Vec<Option<u32>> {
    let dom = dominators(preds, entry);
    let depth = |d: usize| dom[d].iter().filter(|&&x| x).count();
    (0..dom.len())
        .map(|b| {
            let strict = (0..dom.len()).filter(|&d| d != b && dom[b][d]);
            strict.max_by_key(|&d| depth(d)).filter(|&d| d < b).map(|d| d as u32)
        })
        .collect()
}
