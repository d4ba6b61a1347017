//! Refusal 16: the lowest position of the wrong parity that lies on a closed walk through no lower priorities. A search from
//! each such position, in turn, as long as few links are looked at. Then positions that lie on no such walk are taken out,
//! by components of what is left, and a search goes on within these.

use super::components::Components;
use crate::baseline::index::Index;

/// How often positions are taken out. Nested loops would need a level each, where searches are short.
const MOST_LEVELS: usize = 8;
/// How many times as many links as the plan has are looked at before positions are taken out, by both programs: long
/// searches pay where most positions have short ones.
const FEW: [usize; 2] = [4, 64];
/// The block of a position that is taken out.
const GONE: u16 = u16::MAX;

/// A plan of fewer than P positions: their priorities and links.
pub struct Walks<'a, const P: usize> {
    pub priorities: &'a [u16],
    pub next: &'a Index<'a>,
    pub player: u16,
}

/// The memory of searches. A walk of the kind that is looked for stays in one block.
struct Search<const P: usize> {
    block: [u16; P],
    /// The priority of each position, above the number of the search that found it last, in the lower half.
    found: [u32; P],
    queue: [u16; P],
    /// The links that were looked at, and one for each position.
    looked: usize,
}

impl<const P: usize> Walks<'_, P> {
    /// The position, if there is one.
    pub fn first_bad<const PATIENT: bool>(&self, links: usize) -> Option<usize> {
        let p = self.priorities.len();
        let mut search = Search { block: [0; P], found: [0; P], queue: [0; P], looked: 0 };
        for (found, &priority) in search.found.iter_mut().zip(self.priorities) {
            *found = u32::from(priority) << 16;
        }
        let few = FEW[PATIENT as usize] * (p + links);
        for i in (0..p).filter(|&i| self.is_wrong(i)) {
            if search.looked > few {
                return self.first_bad_from(i, &mut search);
            }
            if self.returns::<false>(&mut search, i) {
                return Some(i);
            }
        }
        None
    }

    fn is_wrong(&self, i: usize) -> bool {
        self.priorities[i] % 2 != self.player
    }

    /// Whether a walk of the kind leads from a position back to it, where there are blocks within its block.
    fn returns<const BLOCKS: bool>(&self, search: &mut Search<P>, i: usize) -> bool {
        let Search { block, found, queue, looked } = search;
        let (stamp, least, own) = (i as u16 + 1, found[i] & !0xffff, block[i]);
        let (mut head, mut tail, mut from) = (0, 0, i);
        loop {
            let links = self.next.of(from);
            *looked += links.len() + 1;
            for &j in links {
                let (inside, found) = (!BLOCKS || block[j as usize] == own, &mut found[j as usize]);
                if inside && *found >= least && *found as u16 != stamp {
                    *found = *found & !0xffff | u32::from(stamp);
                    queue[tail] = j;
                    tail += 1;
                }
            }
            if found[i] as u16 == stamp {
                return true;
            }
            if head == tail {
                return false;
            }
            from = queue[head] as usize;
            head += 1;
        }
    }

    /// The position, where none before `first` is one.
    fn first_bad_from(&self, first: usize, search: &mut Search<P>) -> Option<usize> {
        let (mut components, mut lowest, mut live) = (Components::NONE, [0; P], [0; P]);
        let mut count = self.priorities.len();
        (0..count).for_each(|i| live[i] = i as u16);
        for _ in 0..MOST_LEVELS {
            count =
                self.take_out(&mut live[..count], &mut search.block, &mut components, &mut lowest);
            let asked = |&&i: &&u16| i as usize >= first && self.is_wrong(i as usize);
            live[..count].iter().find(asked)?;
        }
        let mut asked = live[..count].iter().map(|&i| i as usize).filter(|&i| i >= first);
        asked.find(|&i| self.is_wrong(i) && self.returns::<true>(search, i))
    }

    /// Of the positions that are left, takes out those that have no link within their component, and those that have its
    /// lowest priority where that is of the right parity. Components become blocks. The number of those that are left.
    fn take_out(
        &self,
        live: &mut [u16],
        block: &mut [u16; P],
        components: &mut Components<P>,
        lowest: &mut [u16; P],
    ) -> usize {
        components.find(live, self.next, |v, w| block[v] == block[w]);
        lowest[..components.count].fill(u16::MAX);
        for &v in live.iter() {
            let least = &mut lowest[components.of[v as usize] as usize];
            *least = self.priorities[v as usize].min(*least);
        }
        let mut left = 0;
        for at in 0..live.len() {
            let v = live[at] as usize;
            let component = components.of[v];
            let is_lowest = self.priorities[v] == lowest[component as usize];
            let inside = |&w: &u16| components.of[w as usize] == component;
            if is_lowest && !self.is_wrong(v) || !self.next.of(v).iter().any(inside) {
                (block[v], components.of[v]) = (GONE, GONE);
            } else {
                (block[v], live[left]) = (component, v as u16);
                left += 1;
            }
        }
        left
    }
}
