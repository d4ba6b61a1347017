//! Strongly connected components of a set of edges, those that others lead to first.

/// No vertex, and the end of a list.
pub(super) const NONE: u32 = u32::MAX;

/// A vertex that isn't reached yet, and one whose component is found.
const UNSEEN: u32 = 0;
const DONE: u32 = u32::MAX;

/// The components of the edges that it was last given, and the memory for the next ones.
#[derive(Debug, Default)]
pub(super) struct Components {
    /// The lowest vertex of each vertex's component; `NONE` where the vertex has no edge.
    pub label: Vec<u32>,
    /// The vertices that have edges, component after component, each after all those that it leads to.
    pub order: Vec<u32>,
    /// Where the rest of each vertex's list begins.
    start: Vec<usize>,
    /// The targets of the edges, listed by source, each list with its end.
    lists: Vec<u32>,
    /// `UNSEEN`, `DONE`, or the lowest number of a waiting vertex that is known to be reached; vertices are numbered as they are reached.
    state: Vec<u32>,
    touched: Vec<u32>,
    waiting: Vec<u32>,
    /// The vertices on the way to the present one, with their numbers.
    calls: Vec<(u32, u32)>,
    reached: u32,
}

impl Components {
    /// For edges between `n` vertices.
    pub fn new(n: usize) -> Components {
        Components {
            label: vec![NONE; n],
            start: vec![0; n],
            state: vec![UNSEEN; n],
            ..Components::default()
        }
    }

    /// Finds the components of these edges, which every vertex has.
    pub fn find_all(&mut self, edges: impl Iterator<Item = (u32, u32)> + Clone) {
        for v in 0..self.label.len() as u32 {
            self.touch(v);
        }
        self.search(edges);
    }

    /// Finds the components of these edges. Takes time by the edges alone.
    pub fn find(&mut self, edges: impl Iterator<Item = (u32, u32)> + Clone) {
        for v in self.order.drain(..) {
            self.label[v as usize] = NONE;
        }
        self.touched.clear();
        edges.clone().for_each(|(source, target)| {
            self.touch(source);
            self.touch(target);
        });
        self.search(edges);
    }

    fn touch(&mut self, v: u32) {
        let label = &mut self.label[v as usize];
        if *label == NONE {
            *label = v;
            self.start[v as usize] = 0;
            self.state[v as usize] = UNSEEN;
            self.touched.push(v);
        }
    }

    /// Finds the components of edges between the vertices that are touched.
    fn search(&mut self, edges: impl Iterator<Item = (u32, u32)> + Clone) {
        self.list(edges);
        self.reached = 0;
        for i in 0..self.touched.len() {
            let root = self.touched[i];
            if self.state[root as usize] == UNSEEN {
                self.visit(root);
            }
        }
    }

    /// Lists the targets by source.
    fn list(&mut self, edges: impl Iterator<Item = (u32, u32)> + Clone) {
        edges.clone().for_each(|(source, _)| self.start[source as usize] += 1);
        let mut end = 0;
        for &v in &self.touched {
            end += self.start[v as usize] + 1;
            self.start[v as usize] = end - 1;
        }
        self.lists.clear();
        self.lists.resize(end, NONE);
        edges.for_each(|(source, target)| {
            let start = &mut self.start[source as usize];
            *start -= 1;
            self.lists[*start] = target;
        });
    }

    /// Goes depth first through what a vertex reaches.
    fn visit(&mut self, root: u32) {
        self.enter(root);
        while let Some(&(v, number)) = self.calls.last() {
            let (mut at, mut low) = (self.start[v as usize], self.state[v as usize]);
            let next = loop {
                let w = self.lists[at];
                if w == NONE {
                    break w;
                }
                let of = self.state[w as usize];
                if of == UNSEEN {
                    break w;
                }
                low = low.min(of);
                at += 1;
            };
            // A vertex that is entered now is looked at once more when it is left.
            self.start[v as usize] = at;
            self.state[v as usize] = low;
            match next {
                NONE => self.leave(v, low == number),
                w => self.enter(w),
            }
        }
    }

    fn enter(&mut self, v: u32) {
        self.reached += 1;
        self.state[v as usize] = self.reached;
        self.calls.push((v, self.reached));
    }

    /// Leaves a vertex; if it is the first of its component, all of that is known.
    fn leave(&mut self, v: u32, first: bool) {
        self.calls.pop();
        if !first {
            self.waiting.push(v);
            return;
        }
        let number = self.state[v as usize];
        let later = self.waiting.iter().rev();
        let members = later.take_while(|&&w| self.state[w as usize] >= number).count();
        let begin = self.order.len();
        self.order.push(v);
        self.order.extend(self.waiting.drain(self.waiting.len() - members..));
        let lowest = self.order[begin..].iter().copied().min().unwrap_or(v);
        for &w in &self.order[begin..] {
            self.label[w as usize] = lowest;
            self.state[w as usize] = DONE;
        }
    }
}
