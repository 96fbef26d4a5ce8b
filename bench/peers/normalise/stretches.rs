//! The winners of each stretch of dates between two cuts, and the weeks that are joined.

use crate::days::{week, weekday};
use crate::records::{Assoc, Extract, Sched, When, Window};
use std::collections::HashMap;

/// The records of one key and what tells their bodies apart.
pub trait Group {
    fn len(&self) -> usize;
    fn when(&self, i: usize) -> When;
    fn same(&self, i: usize, j: usize) -> bool;
    fn body(&self, i: usize) -> (&[u8], &[u8]);
}

pub struct Assocs<'a>(pub &'a [Assoc]);

impl Group for Assocs<'_> {
    #[inline]
    fn len(&self) -> usize {
        self.0.len()
    }
    #[inline]
    fn when(&self, i: usize) -> When {
        self.0[i].when
    }
    fn same(&self, i: usize, j: usize) -> bool {
        self.0[i].body == self.0[j].body
    }
    fn body(&self, i: usize) -> (&[u8], &[u8]) {
        (&self.0[i].body, &[])
    }
}

pub struct Scheds<'a>(pub &'a [Sched], pub &'a Extract<'a>);

impl Group for Scheds<'_> {
    #[inline]
    fn len(&self) -> usize {
        self.0.len()
    }
    #[inline]
    fn when(&self, i: usize) -> When {
        self.0[i].when
    }
    fn same(&self, i: usize, j: usize) -> bool {
        self.0[i].lines == self.0[j].lines && self.body(i) == self.body(j)
    }
    fn body(&self, i: usize) -> (&[u8], &[u8]) {
        let lines = self.1.lines(&self.0[i]);
        (&lines[29..78], &lines[81..])
    }
}

#[derive(Clone, Copy)]
pub struct Run {
    /// Position of a record with the run's body.
    pub source: u32,
    pub first: u16,
    pub last: u16,
    pub mask: u8,
}

/// `weeks` equal weeks from `week` on.
#[derive(Clone, Copy)]
struct Segment {
    id: u32,
    week: u16,
    weeks: u16,
    mask: u8,
}

const NOTHING: u32 = u32::MAX;

pub struct Solver {
    window: Window,
    form_two: bool,
    order: Vec<u32>,
    ids: Vec<u32>,
    cuts: Vec<u16>,
    chosen: Vec<(u32, u8)>,
    segments: Vec<Segment>,
    pub runs: Vec<Run>,
}

/// The weekdays that have a date in a stretch.
#[inline]
fn weekdays(first: u16, last: u16) -> u8 {
    if last - first >= 6 {
        return 0x7F;
    }
    let seven = ((1u16 << (last - first + 1)) - 1) << weekday(first);
    (seven | seven >> 7) as u8 & 0x7F
}

impl Solver {
    pub fn new(window: Window, form_two: bool) -> Solver {
        Solver {
            window,
            form_two,
            order: Vec::new(),
            ids: Vec::new(),
            cuts: Vec::new(),
            chosen: Vec::new(),
            segments: Vec::new(),
            runs: Vec::new(),
        }
    }

    /// Appends the runs of one key to `self.runs`; Err is the first ambiguous date.
    pub fn solve<G: Group>(&mut self, group: &G, base: u32) -> Result<(), u16> {
        self.segments.clear();
        let n = group.len();
        if n == 1 {
            let when = group.when(0);
            let (first, last) = (
                when.first.max(self.window.first),
                when.last.min(self.window.last),
            );
            if when.rank != 0 && first <= last {
                self.stretch(0, first, last, when.days & weekdays(first, last));
                self.join(base);
            }
            return Ok(());
        }
        self.cut(group);
        if n <= 64 {
            self.few(group)?
        } else {
            self.many(group)?
        }
        self.finish(base);
        Ok(())
    }

    /// The first days of the stretches.
    fn cut<G: Group>(&mut self, group: &G) {
        self.cuts.clear();
        self.cuts.push(self.window.first);
        for i in 0..group.len() {
            let when = group.when(i);
            for cut in [when.first, when.last + 1] {
                if cut > self.window.first && cut <= self.window.last {
                    self.cuts.push(cut);
                }
            }
        }
        self.cuts.sort_unstable();
        self.cuts.dedup();
    }

    /// The runs of all bodies of one key, rising by first date.
    fn finish(&mut self, base: u32) {
        if self.segments.iter().any(|s| s.id != self.segments[0].id) {
            self.segments.sort_by_key(|s| (s.id, s.week));
            let from = self.runs.len();
            self.join(base);
            self.runs[from..].sort_unstable_by_key(|run| run.first);
        } else {
            self.join(base);
        }
    }

    fn piece_end(&self, c: usize) -> u16 {
        self.cuts
            .get(c + 1)
            .map_or(self.window.last, |next| next - 1)
    }

    /// Each record is looked at in each stretch.
    fn few<G: Group>(&mut self, group: &G) -> Result<(), u16> {
        let n = group.len();
        self.order.clear();
        self.order.extend(0..n as u32);
        self.order.sort_by_key(|&i| group.when(i as usize).rank);
        self.ids.clear();
        for i in 0..n {
            let id = if group.when(i).rank == 0 {
                NOTHING
            } else {
                (0..i)
                    .find(|&j| self.ids[j] == j as u32 && group.same(i, j))
                    .unwrap_or(i) as u32
            };
            self.ids.push(id);
        }
        for c in 0..self.cuts.len() {
            let (first, last) = (self.cuts[c], self.piece_end(c));
            // Weekdays that no record so far has decided, then those of this rank.
            let mut free = weekdays(first, last);
            let mut clash = 0u8;
            let (mut rank, mut taken, mut of_rank) = (0, 0u8, 0);
            self.chosen.clear();
            for &i in &self.order {
                let when = group.when(i as usize);
                if when.first > first || when.last < last {
                    continue;
                }
                if when.rank != rank {
                    free &= !taken;
                    (rank, taken, of_rank) = (when.rank, 0, self.chosen.len());
                }
                let mask = when.days & free;
                if mask == 0 {
                    continue;
                }
                let id = self.ids[i as usize];
                taken |= mask;
                let mut known = false;
                for (other, theirs) in &mut self.chosen[of_rank..] {
                    if *other == id {
                        *theirs |= mask;
                        known = true;
                    } else {
                        clash |= *theirs & mask;
                    }
                }
                if !known {
                    self.chosen.push((id, mask));
                }
            }
            self.decided(first, last, clash)?;
        }
        Ok(())
    }

    /// The same for many records of one key: a sweep that counts, for each letter
    /// and weekday, the bodies of the records that apply.
    fn many<G: Group>(&mut self, group: &G) -> Result<(), u16> {
        let n = group.len();
        let mut known: HashMap<(&[u8], &[u8]), u32> = HashMap::new();
        self.ids.clear();
        for i in 0..n {
            let id = if group.when(i).rank == 0 {
                NOTHING
            } else {
                *known.entry(group.body(i)).or_insert(i as u32)
            };
            self.ids.push(id);
        }
        // (day, comes in, record): records go before others come.
        let mut events: Vec<(u16, bool, u32)> = Vec::with_capacity(2 * n);
        for i in 0..n {
            let when = group.when(i);
            if when.first <= self.window.last && when.last >= self.window.first {
                events.push((when.first.max(self.window.first), true, i as u32));
                events.push((when.last + 1, false, i as u32));
            }
        }
        events.sort_unstable();
        let mut event = 0;
        let mut counts: Vec<HashMap<u32, u32>> = vec![HashMap::new(); 28];
        for c in 0..self.cuts.len() {
            let (first, last) = (self.cuts[c], self.piece_end(c));
            while event < events.len() && events[event].0 <= first {
                let (_, comes, i) = events[event];
                let when = group.when(i as usize);
                let id = self.ids[i as usize];
                for w in (0..7).filter(|w| when.days >> w & 1 == 1) {
                    let count = &mut counts[when.rank as usize * 7 + w];
                    if comes {
                        *count.entry(id).or_insert(0) += 1;
                    } else if let Some(left) = count.get_mut(&id) {
                        *left -= 1;
                        if *left == 0 {
                            count.remove(&id);
                        }
                    }
                }
                event += 1;
            }
            let present = weekdays(first, last);
            let mut clash = 0u8;
            self.chosen.clear();
            for w in (0..7).filter(|w| present >> w & 1 == 1) {
                let Some(ids) = (0..4)
                    .map(|rank| &counts[rank * 7 + w])
                    .find(|ids| !ids.is_empty())
                else {
                    continue;
                };
                if ids.len() > 1 {
                    clash |= 1 << w;
                    continue;
                }
                let id = *ids.keys().next().unwrap();
                match self.chosen.iter_mut().find(|(other, _)| *other == id) {
                    Some((_, mask)) => *mask |= 1 << w,
                    None => self.chosen.push((id, 1 << w)),
                }
            }
            self.decided(first, last, clash)?;
        }
        Ok(())
    }

    fn decided(&mut self, first: u16, last: u16, clash: u8) -> Result<(), u16> {
        if clash != 0 {
            return Err((first..=last)
                .find(|&d| clash >> weekday(d) & 1 == 1)
                .unwrap());
        }
        for i in 0..self.chosen.len() {
            let (id, mut mask) = self.chosen[i];
            // One body may win by different letters on different weekdays.
            for (other, theirs) in &mut self.chosen[i + 1..] {
                if *other == id {
                    mask |= std::mem::take(theirs);
                }
            }
            if id != NOTHING && mask != 0 {
                self.stretch(id, first, last, mask);
            }
        }
        Ok(())
    }

    /// The weeks of one stretch on whose weekdays `mask` a body runs.
    #[inline]
    fn stretch(&mut self, id: u32, first: u16, last: u16, mask: u8) {
        let (mut from, mut to) = (week(first), week(last));
        let (wf, wl) = (weekday(first), weekday(last));
        let head = mask & (0x7F << wf) as u8;
        let tail = mask & (0x7F >> (6 - wl)) as u8;
        if from == to {
            return self.segment(id, from, 1, head & tail);
        }
        if wf != 0 {
            self.segment(id, from, 1, head);
            from += 1;
        }
        if wl != 6 {
            to -= 1;
        }
        if from <= to {
            self.segment(id, from, to - from + 1, mask);
        }
        if wl != 6 {
            self.segment(id, to + 1, 1, tail);
        }
    }

    #[inline]
    fn segment(&mut self, id: u32, week: u16, weeks: u16, mask: u8) {
        if mask != 0 {
            self.segments.push(Segment {
                id,
                week,
                weeks,
                mask,
            });
        }
    }

    /// The weekdays of a week whose dates lie in the window.
    fn inside(&self, of: u16) -> u8 {
        let mut mask = 0x7Fu32;
        if of == week(self.window.first) {
            mask &= 0x7F << weekday(self.window.first);
        }
        if of == week(self.window.last) {
            mask &= 0x7F >> (6 - weekday(self.window.last));
        }
        mask as u8
    }

    /// Joins weeks of the segments, which are in order of id and week.
    fn join(&mut self, base: u32) {
        let mut i = 0;
        // The open run: its id, first day, last week, that week's mask, its mask.
        let mut id = NOTHING;
        let (mut first, mut last_week, mut last_mask, mut mask) = (0u16, 0u16, 0u8, 0u8);
        let day = |week: u16, weekday: u32| (week as u32 * 7 + weekday - 4) as u16;
        macro_rules! close {
            () => {
                if id != NOTHING {
                    let last = day(last_week, 7 - last_mask.leading_zeros());
                    self.runs.push(Run {
                        source: base + id,
                        first,
                        last,
                        mask,
                    });
                }
            };
        }
        while i < self.segments.len() {
            let mut s = self.segments[i];
            i += 1;
            // Stretches that share a week.
            while i < self.segments.len()
                && self.segments[i].id == s.id
                && self.segments[i].week == s.week
            {
                s.mask |= self.segments[i].mask;
                i += 1;
            }
            let joins = id == s.id
                && s.week == last_week + 1
                && if self.form_two {
                    (last_mask ^ s.mask) & self.inside(last_week) & self.inside(s.week) == 0
                } else {
                    last_mask == s.mask
                };
            if joins {
                mask |= s.mask;
            } else {
                close!();
                id = s.id;
                first = day(s.week, s.mask.trailing_zeros());
                mask = s.mask;
            }
            last_week = s.week + s.weeks - 1;
            last_mask = s.mask;
        }
        close!();
    }
}
