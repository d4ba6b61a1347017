//! Certificates of solutions, made. Nothing here has to be trusted: the proved call judges what it makes.
//!
//! An order of the vertices is a certificate if each kept edge goes down, but for those from a priority of the winner's, which may go up as long
//! as they pass places of no lower priority alone. Components of the kept edges stand in it from the sinks up; inside a component, the vertices
//! below the lowest priority of the loser's come first, by priority, and the rest again by components. So the order is known from the components
//! that the vertices from each losing priority on have. They are found for all those priorities at once: each half of the priorities gets the
//! edges that its components join, so that an edge is looked at once for each time the priorities can be halved.

use super::components::{Components, NONE};
use super::flaw::Flaw;
use super::solved::Solved;

/// An edge between two vertices, or between the lowest vertices of two components.
type Ends = (u32, u32);

/// Makes the certificate of a solution: the place of each vertex, the vertex at each place, the last place of each place's run. Where there is
/// none, tells why. Takes time by the edges times the logarithm of the number of priorities.
///
/// # Panics
/// May panic on words that the refusals 1 to 84 don't let pass.
pub fn make(game: &[u32], solution: &[u32]) -> Result<Vec<u32>, Flaw> {
    let solved = Solved::new(game, solution);
    if let Some(flaw) = Flaw::of_loop(&solved) {
        return Err(flaw);
    }
    let mut words = vec![0; 3 * solved.n()];
    let (places, rest) = words.split_at_mut(solved.n());
    let (vertices, ends) = rest.split_at_mut(solved.n());
    order(solved, vertices)?;
    for (place, &v) in (0..).zip(vertices.iter()) {
        places[v as usize] = place;
    }
    find_runs(&solved, vertices, ends);
    Ok(words)
}

/// The last place of the longest run of each place: of the next places whose priorities are higher, or the same and the winner's.
fn find_runs(solved: &Solved, vertices: &[u32], ends: &mut [u32]) {
    let n = vertices.len();
    for i in (0..n).rev() {
        let v = vertices[i];
        let least = u64::from(solved.priorities[v as usize]) + u64::from(solved.is_lost(v));
        let mut next = i + 1;
        while next < n && u64::from(solved.priorities[vertices[next] as usize]) >= least {
            next = ends[next] as usize + 1;
        }
        ends[i] = (next - 1) as u32;
    }
}

/// Writes the vertices in sequence.
fn order(solved: Solved, vertices: &mut [u32]) -> Result<(), Flaw> {
    let mut components = Components::new(solved.n());
    components.find_all(solved.kept());
    let label = &components.label;
    let is_inner = |&(v, w): &Ends| v != w && label[v as usize] == label[w as usize];
    let mut inner = Vec::with_capacity(solved.kept().filter(is_inner).count());
    if inner.capacity() == 0 {
        vertices.copy_from_slice(&components.order);
        return Ok(());
    }
    inner.extend(solved.kept().filter(is_inner));
    let of_one = components.order.chunk_by(|&v, &w| label[v as usize] == label[w as usize]);
    let lowest: Vec<u32> = of_one.map(|members| label[members[0] as usize]).collect();
    let mut maker = Maker::new(solved, components);
    let count = maker.number_times();
    maker.divide(&mut inner, 0, count)?;
    maker.write(&lowest, vertices);
    Ok(())
}

/// An order of the vertices in the making: a ring of vertices for each component that is known.
struct Maker<'a> {
    solved: Solved<'a>,
    components: Components,
    /// Counts the losing priorities above the vertex's own.
    times: Vec<u32>,
    /// The vertex after each one in its ring.
    next: Vec<u32>,
    /// The last vertex of the ring of each component, at its lowest vertex.
    last: Vec<u32>,
    /// The last vertex so far of a ring that is being joined, at the lowest vertex of all.
    joined: Vec<u32>,
    /// The lowest vertex of the component that a vertex is being joined to.
    group: Vec<u32>,
}

impl<'a> Maker<'a> {
    /// With each vertex in a ring of its own; the components of all kept edges are found.
    fn new(solved: Solved<'a>, components: Components) -> Maker<'a> {
        let n = solved.n();
        let alone: Vec<u32> = (0..n as u32).collect();
        Maker {
            solved,
            components,
            times: vec![0; n],
            next: alone.clone(),
            last: alone,
            joined: vec![NONE; n],
            group: vec![0; n],
        }
    }

    /// Writes the rings of these components one after the other.
    fn write(&self, components: &[u32], vertices: &mut [u32]) {
        let mut place = vertices.iter_mut();
        for &component in components {
            let last = self.last[component as usize];
            let mut v = last;
            for place in &mut place {
                v = self.next[v as usize];
                *place = v;
                if v == last {
                    break;
                }
            }
        }
    }

    /// Numbers the losing priorities in components of several vertices from the highest down, then what is below all of them, and gives each
    /// vertex the number of the highest one that isn't above its own. Returns how many numbers there are.
    fn number_times(&mut self) -> u32 {
        let (solved, label) = (self.solved, &self.components.label);
        let priority = |v: u32| solved.priorities[v as usize];
        let same = |v: &u32, w: &u32| label[*v as usize] == label[*w as usize];
        let several =
            || self.components.order.chunk_by(same).filter(|members| members.len() > 1).flatten();
        let mut losing: Vec<u32> =
            several().filter(|&&v| solved.is_lost(v)).map(|&v| priority(v)).collect();
        losing.sort_unstable();
        losing.dedup();
        for &v in several() {
            let above = losing.len() - losing.partition_point(|&losing| losing <= priority(v));
            self.times[v as usize] = above as u32;
        }
        losing.len() as u32 + 1
    }

    /// Joins the components that these edges make from each of the times on, up to `end`. Components of earlier times are known, and stand in
    /// the edges as their lowest vertices.
    fn divide(&mut self, edges: &mut [Ends], begin: u32, end: u32) -> Result<(), Flaw> {
        if edges.is_empty() {
            return Ok(());
        }
        if end - begin == 1 {
            return self.join(edges, begin);
        }
        let middle = begin + (end - begin) / 2;
        let times = &self.times;
        let is_early = |&(v, w): &Ends| times[v as usize].max(times[w as usize]) < middle;
        self.components.find(edges.iter().copied().filter(is_early));
        let label = |v: u32| match self.components.label[v as usize] {
            NONE => v,
            label => label,
        };
        let mut early = 0;
        for i in 0..edges.len() {
            let ends = (label(edges[i].0), label(edges[i].1));
            if ends.0 == ends.1 {
                edges.swap(early, i);
                early += 1;
            } else {
                edges[i] = ends;
            }
        }
        let (early, late) = edges.split_at_mut(early);
        self.divide(early, begin, middle)?;
        self.divide(late, middle, end)
    }

    /// Joins the components of these edges, all of which lie inside one from this time on: first the vertices that come in at this time, by
    /// priority, then the others from the sinks up.
    fn join(&mut self, edges: &[Ends], time: u32) -> Result<(), Flaw> {
        self.components.find(edges.iter().copied());
        let all = self.components.order.clone();
        for &v in &all {
            self.group[v as usize] = self.components.label[v as usize];
        }
        let (solved, times) = (self.solved, &self.times);
        let is_early = |v: u32| times[v as usize] < time;
        let mut line: Vec<u32> = all.iter().copied().filter(|&v| !is_early(v)).collect();
        if line.iter().any(|&v| solved.is_lost(v)) {
            line.retain(|&v| solved.is_lost(v));
            return Err(Flaw::shortest(&solved, &line));
        }
        line.sort_by_key(|&v| solved.priorities[v as usize]);
        let between = edges.iter().copied().filter(|&(v, w)| is_early(v) && is_early(w));
        self.components.find(between);
        let label = &self.components.label;
        line.extend(all.iter().copied().filter(|&v| is_early(v) && label[v as usize] == NONE));
        line.extend(&self.components.order);
        self.append(&line);
        for v in line.into_iter().filter(|&v| self.group[v as usize] == v) {
            self.last[v as usize] = std::mem::replace(&mut self.joined[v as usize], NONE);
        }
        Ok(())
    }

    /// Appends the ring of each of these components to that of its group.
    fn append(&mut self, line: &[u32]) {
        for &v in line {
            let (joined, last) =
                (&mut self.joined[self.group[v as usize] as usize], self.last[v as usize]);
            if *joined != NONE {
                self.next.swap(*joined as usize, last as usize);
            }
            *joined = last;
        }
    }
}
