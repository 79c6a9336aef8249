// The paper's edge access by a hash table.
use std::collections::HashMap;

use super::Triangle;

// How many half-edges an edge has, and the first and the second of them.
struct Edge {
    count: usize,
    halves: [usize; 2],
}

pub struct Edges {
    // In order of first appearance.
    edges: Vec<Edge>,
    // The number of each half-edge's edge.
    numbers: Vec<usize>,
}

impl Edges {
    pub fn new(triangles: &[Triangle]) -> Edges {
        // As many as a closed mesh has.
        let mut found = HashMap::with_capacity(3 * triangles.len() / 2);
        let mut edges: Vec<Edge> = Vec::with_capacity(3 * triangles.len() / 2);
        let mut numbers = Vec::with_capacity(3 * triangles.len());
        for &[a, b, c] in triangles {
            for key in [key(a, b), key(b, c), key(c, a)] {
                let half = numbers.len();
                let number = *found.entry(key).or_insert(edges.len());
                match edges.get_mut(number) {
                    Some(edge) => edge.add(half),
                    None => edges.push(Edge { count: 1, halves: [half; 2] }),
                }
                numbers.push(number);
            }
        }
        Edges { edges, numbers }
    }

    pub fn count(&self) -> usize {
        self.edges.len()
    }

    // How many of them have one half-edge.
    pub fn boundary(&self) -> usize {
        self.edges.iter().filter(|edge| edge.count == 1).count()
    }

    // The numbers of the edges of each triangle.
    pub fn numbers(&self) -> &[[usize; 3]] {
        self.numbers.as_chunks().0
    }

    // The first half-edge on the edge of each half-edge.
    pub fn firsts(&self) -> impl Iterator<Item = usize> + '_ {
        self.numbers.iter().map(|&number| self.edges[number].halves[0])
    }

    // The other half-edge on a half-edge's edge, where there are exactly two.
    pub fn mate(&self, half: usize) -> Option<usize> {
        let Edge { count, halves: [first, second] } = self.edges[self.numbers[half]];
        (count == 2).then_some(if half == first { second } else { first })
    }
}

impl Edge {
    fn add(&mut self, half: usize) {
        if self.count == 1 {
            self.halves[1] = half;
        }
        self.count += 1;
    }
}

// An unordered pair of vertices.
fn key(a: u16, b: u16) -> u32 {
    u32::from(a.min(b)) << 16 | u32::from(a.max(b))
}
