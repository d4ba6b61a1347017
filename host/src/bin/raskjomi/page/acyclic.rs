//! Directed graphs without their cycles: which edges to turn round, and the longest ways then.

/// Which edges lead back to a vertex that the search in depth hasn't left.
pub fn back_in_depth(n: usize, edges: &[(usize, usize)]) -> Vec<bool> {
    let mut leaving = vec![Vec::new(); n];
    edges.iter().enumerate().for_each(|(i, &(source, _))| leaving[source].push(i));
    let (mut backward, mut is_found, mut is_open) =
        (vec![false; edges.len()], vec![false; n], vec![false; n]);
    for root in 0..n {
        let mut way = if is_found[root] { Vec::new() } else { vec![(root, 0)] };
        while let Some((vertex, next)) = way.pop() {
            (is_found[vertex], is_open[vertex]) = (true, true);
            let Some(&edge) = leaving[vertex].get(next) else {
                is_open[vertex] = false;
                continue;
            };
            way.push((vertex, next + 1));
            let target = edges[edge].1;
            backward[edge] = is_open[target];
            if !is_found[target] {
                way.push((target, 0));
            }
        }
    }
    backward
}

/// Which edges lead back to a vertex that a search in breadth has found before. It begins where no edge leads to.
pub fn back_in_breadth(n: usize, edges: &[(usize, usize)]) -> Vec<bool> {
    let mut leaving = vec![Vec::new(); n];
    let mut is_root = vec![true; n];
    for &(source, target) in edges {
        leaving[source].push(target);
        is_root[target] &= source == target;
    }
    let (mut rank, mut found) = (vec![n; n], Vec::new());
    let roots = (0..n).filter(|&vertex| is_root[vertex]);
    let others = (0..n).filter(|&vertex| !is_root[vertex]);
    for root in roots.chain(others) {
        let mut next = found.len();
        let mut find = |vertex: usize, found: &mut Vec<usize>| {
            if rank[vertex] == n {
                rank[vertex] = found.len();
                found.push(vertex);
            }
        };
        find(root, &mut found);
        while let Some(&vertex) = found.get(next) {
            leaving[vertex].iter().for_each(|&target| find(target, &mut found));
            next += 1;
        }
    }
    edges.iter().map(|&(source, target)| rank[target] <= rank[source]).collect()
}

/// The number of edges on the longest way to each vertex, of a graph without cycles.
pub fn longest_ways(n: usize, edges: &[(usize, usize)]) -> Vec<usize> {
    let (mut longest, mut open) = (vec![0; n], vec![0; n]);
    let mut leaving = vec![Vec::new(); n];
    for &(source, target) in edges {
        open[target] += 1;
        leaving[source].push(target);
    }
    let mut ready: Vec<usize> = (0..n).filter(|&vertex| open[vertex] == 0).collect();
    while let Some(vertex) = ready.pop() {
        for &target in &leaving[vertex] {
            longest[target] = longest[target].max(longest[vertex] + 1);
            open[target] -= 1;
            if open[target] == 0 {
                ready.push(target);
            }
        }
    }
    longest
}
