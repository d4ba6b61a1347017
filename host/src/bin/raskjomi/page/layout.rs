//! A layered layout of a directed graph: cycles are broken, a vertex stands in the layer of the longest way to it, layers are ordered by
//! barycentres, and places are as near to the neighbours' as the order allows.

use super::acyclic::{back_in_breadth, back_in_depth, longest_ways};

/// The space between two of a layer.
const GAP: f64 = 18.0;

/// The height of a layer, with the space behind it.
const LAYER: f64 = 92.0;

/// The width of an edge that passes a layer.
const PASSING: f64 = 6.0;

/// How often the layers are ordered, and how often places are drawn to the neighbours'.
const SWEEPS: usize = 24;

/// A point, to the right and down.
pub type Point = (f64, f64);

/// Where everything stands.
pub struct Layout {
    pub width: f64,
    pub height: f64,
    /// The middle of each vertex.
    pub vertices: Vec<Point>,
    /// The points of each edge, from the middle of its source to the middle of its target; none for a loop.
    pub edges: Vec<Vec<Point>>,
}

impl Layout {
    /// Lays out a graph of vertices with these widths, by the search that leaves the lines easier to follow.
    pub fn new(widths: &[f64], edges: &[(usize, usize)]) -> Layout {
        let searches = [back_in_depth, back_in_breadth];
        let laid = searches
            .map(|search| Chains::new(widths, edges, &search(widths.len(), edges)).sorted());
        let [one, other] = laid;
        let (chains, layers) =
            if other.0.effort(&other.1) < one.0.effort(&one.1) { other } else { one };
        let places = chains.places(&layers);
        let point = |node: &usize| (places[*node], LAYER * (chains.layer[*node] as f64 + 0.5));
        let left = |node: usize| places[node] - chains.widths[node] / 2.0;
        let right = |node: usize| places[node] + chains.widths[node] / 2.0;
        let nodes = 0..chains.widths.len();
        let least = nodes.clone().map(left).fold(0.0, f64::min);
        let most = nodes.map(right).fold(0.0, f64::max);
        let shifted = |(x, y): Point| (x - least + GAP, y);
        let route = |chain: &Vec<usize>| chain.iter().map(point).map(shifted).collect();
        Layout {
            width: most - least + 2.0 * GAP,
            height: LAYER * layers.len() as f64,
            vertices: (0..widths.len()).map(|node| shifted(point(&node))).collect(),
            edges: chains.routes.iter().map(route).collect(),
        }
    }
}

/// The vertices, and behind them a node for each layer that an edge passes.
struct Chains {
    widths: Vec<f64>,
    layer: Vec<usize>,
    /// The nodes of each edge, from its source to its target.
    routes: Vec<Vec<usize>>,
    /// The neighbours of each node in the layer above and in the one below.
    above: Vec<Vec<usize>>,
    below: Vec<Vec<usize>>,
}

impl Chains {
    fn new(widths: &[f64], edges: &[(usize, usize)], backward: &[bool]) -> Chains {
        let mut widths = widths.to_vec();
        let down = |i: usize| match (edges[i], backward[i]) {
            ((source, target), true) => (target, source),
            (edge, false) => edge,
        };
        let downward: Vec<(usize, usize)> =
            (0..edges.len()).map(down).filter(|(v, w)| v != w).collect();
        let mut layer = longest_ways(widths.len(), &downward);
        let mut routes = Vec::new();
        let mut links = Vec::new();
        for (i, _) in edges.iter().enumerate() {
            let (from, to) = down(i);
            let mut route = vec![from];
            for passed in layer[from] + 1..layer[to] {
                route.push(layer.len());
                layer.push(passed);
                widths.push(PASSING);
            }
            route.push(to);
            if from == to {
                route.clear();
            }
            links.extend(route.windows(2).map(|ends| (ends[0], ends[1])));
            if backward[i] {
                route.reverse();
            }
            routes.push(route);
        }
        let (mut above, mut below) = (vec![Vec::new(); layer.len()], vec![Vec::new(); layer.len()]);
        for (from, to) in links {
            below[from].push(to);
            above[to].push(from);
        }
        Chains { widths, layer, routes, above, below }
    }

    /// The nodes of each layer.
    fn layers(&self) -> Vec<Vec<usize>> {
        let mut layers = vec![Vec::new(); self.layer.iter().max().map_or(0, |last| last + 1)];
        self.layer.iter().enumerate().for_each(|(node, &layer)| layers[layer].push(node));
        layers
    }

    /// Orders the layers by barycentres, down and up in turn, and keeps the order with the fewest crossings.
    fn sorted(self) -> (Chains, Vec<Vec<usize>>) {
        let mut layers = self.layers();
        let mut best = (self.crossings(&layers), layers.clone());
        for sweep in 0..SWEEPS {
            let is_down = sweep % 2 == 0;
            let near = if is_down { &self.above } else { &self.below };
            let mut place = self.ranks(&layers);
            for step in 0..layers.len() {
                let layer = if is_down { step } else { layers.len() - 1 - step };
                let mean = |&node: &usize| mean(&near[node], &place).unwrap_or(place[node]);
                layers[layer].sort_by(|v, w| mean(v).total_cmp(&mean(w)));
                layers[layer].iter().enumerate().for_each(|(i, &node)| place[node] = i as f64);
            }
            let crossings = self.crossings(&layers);
            if crossings < best.0 {
                best = (crossings, layers.clone());
            }
        }
        (self, best.1)
    }

    /// How hard the lines are to follow: the crossings, and the layers that edges pass.
    fn effort(&self, layers: &[Vec<usize>]) -> usize {
        self.crossings(layers) + self.layer.len()
    }

    /// Which of its layer each node is.
    fn ranks(&self, layers: &[Vec<usize>]) -> Vec<f64> {
        let mut ranks = vec![0.0; self.layer.len()];
        for layer in layers {
            layer.iter().enumerate().for_each(|(i, &node)| ranks[node] = i as f64);
        }
        ranks
    }

    /// How many pairs of links cross each other.
    fn crossings(&self, layers: &[Vec<usize>]) -> usize {
        let ranks = self.ranks(layers);
        let mut count = 0;
        for layer in layers {
            let mut ends: Vec<f64> = Vec::new();
            for &node in layer {
                let own: Vec<f64> = self.below[node].iter().map(|&to| ranks[to]).collect();
                for to in &own {
                    count += ends.iter().filter(|end| *end > to).count();
                }
                ends.extend(own);
            }
        }
        count
    }

    /// How far to the right each node stands.
    fn places(&self, layers: &[Vec<usize>]) -> Vec<f64> {
        let mut places = vec![0.0; self.layer.len()];
        for sweep in 0..SWEEPS {
            for step in 0..layers.len() {
                let layer = if sweep % 2 == 0 { step } else { layers.len() - 1 - step };
                let wanted = |&node: &usize| {
                    let near = [&self.above[node][..], &self.below[node]].concat();
                    mean(&near, &places).unwrap_or(places[node])
                };
                let wanted: Vec<f64> = layers[layer].iter().map(wanted).collect();
                let widths: Vec<f64> =
                    layers[layer].iter().map(|&node| self.widths[node]).collect();
                let placed = apart(&wanted, &widths);
                layers[layer].iter().zip(placed).for_each(|(&node, place)| places[node] = place);
            }
        }
        places
    }
}

/// The mean of the values of some nodes, if there are any.
fn mean(nodes: &[usize], values: &[f64]) -> Option<f64> {
    let sum: f64 = nodes.iter().map(|&node| values[node]).sum();
    (!nodes.is_empty()).then(|| sum / nodes.len() as f64)
}

/// The places in this sequence that have the least sum of squares to those that are wanted, and leave room for the widths: by
/// pooling adjacent violators.
fn apart(wanted: &[f64], widths: &[f64]) -> Vec<f64> {
    let mut offsets = vec![0.0];
    for pair in widths.windows(2) {
        offsets.push(offsets[offsets.len() - 1] + (pair[0] + pair[1]) / 2.0 + GAP);
    }
    let mut pools: Vec<(f64, usize)> = Vec::new();
    for (wanted, offset) in wanted.iter().zip(&offsets) {
        let mut pool = (wanted - offset, 1);
        while let Some(&(value, count)) = pools.last().filter(|(value, _)| *value > pool.0) {
            let all = count + pool.1;
            pool = ((value * count as f64 + pool.0 * pool.1 as f64) / all as f64, all);
            pools.pop();
        }
        pools.push(pool);
    }
    let values = pools.iter().flat_map(|&(value, count)| std::iter::repeat_n(value, count));
    values.zip(offsets).map(|(value, offset)| value + offset).collect()
}

#[cfg(test)]
mod tests {
    use super::*;

    /// Some graph of n vertices with m edges, by a seed.
    fn some_edges(seed: u64, n: usize, m: usize) -> Vec<(usize, usize)> {
        let mut state = seed;
        let mut next = || {
            state = state.wrapping_mul(6364136223846793005).wrapping_add(1442695040888963407);
            (state >> 33) as usize % n
        };
        let mut edges: Vec<(usize, usize)> = (0..m).map(|_| (next(), next())).collect();
        edges.sort();
        edges.dedup();
        edges
    }

    #[test]
    fn vertices_stand_apart_and_edges_join_them() {
        for (seed, n, m) in [(1, 1, 1), (2, 5, 12), (3, 14, 28), (4, 60, 90), (5, 60, 240)] {
            let (widths, edges) = (vec![50.0; n], some_edges(seed, n, m));
            let layout = Layout::new(&widths, &edges);
            for v in 0..n {
                let (x, y) = layout.vertices[v];
                assert!(x >= 25.0 && x + 25.0 <= layout.width && y > 0.0 && y < layout.height);
                for w in 0..v {
                    let (x2, y2) = layout.vertices[w];
                    let gap = (x - x2).abs() - 50.0;
                    assert!((y - y2).abs() > 1.0 || gap > GAP - 1e-6, "{v} and {w} of {n}, {m}");
                }
            }
            for (route, &(source, target)) in layout.edges.iter().zip(&edges) {
                let ends = route.first().copied().zip(route.last().copied());
                let joined = (layout.vertices[source], layout.vertices[target]);
                assert_eq!(ends, (source != target).then_some(joined), "{source} to {target}");
                let steps = route.windows(2).map(|ends| ends[1].1 - ends[0].1);
                assert!(
                    steps.clone().all(|step| step == LAYER)
                        || steps.clone().all(|step| step == -LAYER)
                );
            }
        }
    }

    #[test]
    fn a_way_goes_down_and_a_cycle_comes_back() {
        let layout = Layout::new(&[40.0; 3], &[(0, 1), (1, 2), (2, 0)]);
        let heights = layout.vertices.iter().map(|&(_, y)| y / LAYER - 0.5);
        assert_eq!(heights.collect::<Vec<f64>>(), [0.0, 1.0, 2.0]);
        assert_eq!(layout.edges[2].len(), 3, "the edge back passes the layer of 1");
    }

    #[test]
    fn crossings_go_where_they_can() {
        // Two ways side by side, whose vertices are numbered crosswise.
        let layout = Layout::new(&[40.0; 6], &[(0, 3), (1, 2), (2, 5), (3, 4)]);
        let x = |v: usize| layout.vertices[v].0;
        assert_eq!(x(0) < x(1), x(3) < x(2));
        assert_eq!(x(3) < x(2), x(4) < x(5));
    }

    #[test]
    fn places_are_the_nearest_that_leave_room() {
        assert_eq!(apart(&[0.0, 0.0], &[20.0, 20.0]), [-19.0, 19.0]);
        assert_eq!(apart(&[0.0, 100.0], &[20.0, 20.0]), [0.0, 100.0]);
    }
}
