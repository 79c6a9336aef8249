// The connected components of triangles by union-find, as the paper's second figure has it.
use super::edges::Edges;

// For each triangle one that stands for its component.
pub fn components(edges: &Edges) -> Vec<usize> {
    let mut parents: Vec<usize> = (0..edges.numbers().len()).collect();
    for (half, first) in edges.firsts().enumerate() {
        let (a, b) = (find(&mut parents, half / 3), find(&mut parents, first / 3));
        // The lesser stands for both.
        parents[a.max(b)] = a.min(b);
    }
    (0..parents.len()).map(|k| find(&mut parents, k)).collect()
}

fn find(parents: &mut [usize], mut k: usize) -> usize {
    while parents[k] != k {
        parents[k] = parents[parents[k]];
        k = parents[k];
    }
    k
}
