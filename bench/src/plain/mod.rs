// The calls as a Rust program would have them: the library's steps and tables, on the same lent buffers, with iterators where they
// go in order and checked indices elsewhere. Here stands what all calls share. Half-edge h runs from corner h to the next corner
// of its triangle.
pub mod frames;
pub mod index;
pub mod split;
mod undo;
pub mod undo_one;
pub mod undo_several;

use crate::refusals::Refusal;

// Each call clears its work buffers once, at the end, whatever it answers.
fn clear(work: &mut [Vec<u16>]) {
    for buffer in work {
        buffer.fill(0);
    }
}

// How many entries each of the buffers has.
fn room(work: &[Vec<u16>]) -> usize {
    work.iter().map(Vec::len).min().unwrap_or(0)
}

// Refusals 6 to 10. Where none is given, `ring` holds the rings of the edges.
fn judge(vertices: usize, list: &[u16], ring: &mut [u16], work: [&mut [u16]; 4]) -> Result<(), Refusal> {
    let halves = list.len();
    let triangles = halves / 3;
    let [work1, work2, work3, work4] = work;

    if let Some(corner) = list.iter().position(|&corner| corner as usize >= vertices) {
        return Err(Refusal(6, corner / 3));
    }
    if let Some(k) = list.chunks_exact(3).position(|t| has_equal(t[0], t[1], t[2])) {
        return Err(Refusal(7, k));
    }

    ring_table(vertices, list, ring, [&mut *work1, &mut *work2, &mut *work3, work4]);
    let ring = &ring[..halves];

    // Two triangles are the same if they have an edge and the third vertex in common.
    let thirds = &mut work1[..halves];
    third_vertices(list, thirds);
    if let Some(h) = least_twin(ring, thirds, &mut work2[..vertices]) {
        return Err(Refusal(8, h / 3));
    }

    let used = &mut work3[..vertices];
    mark_used(list, used);
    if let Some(vertex) = used.iter().position(|&mark| mark == 0) {
        return Err(Refusal(9, vertex));
    }

    let reached = &mut work1[..triangles];
    reach(0, ring, reached, work2, &mut work3[..halves]);
    match reached.iter().position(|&mark| mark == 0) {
        Some(k) => Err(Refusal(10, k)),
        None => Ok(()),
    }
}

fn has_equal(a: u16, b: u16, c: u16) -> bool {
    a == b || b == c || c == a
}

// The rings of the edges: `ring[h]` is the next half-edge on the edge of h, and the first one where h is the last. Half-edges are
// chained by their lesser end, and a walk along each chain joins those with the same greater end x: `stamp[x]` is the lesser end
// where this chain has met x, and `last[x]` is then the last half-edge that did.
fn ring_table(vertices: usize, list: &[u16], ring: &mut [u16], work: [&mut [u16]; 4]) {
    // Cut to one length, so that one check of an index serves for all tables.
    let n = list.len();
    let [greater, head, stamp, last] = work;
    let (greater, ring) = (&mut greater[..n], &mut ring[..n]);
    let (head, stamp, last) = (&mut head[..vertices], &mut stamp[..vertices], &mut last[..vertices]);
    for (ends, t) in greater.chunks_exact_mut(3).zip(list.chunks_exact(3)) {
        ends.copy_from_slice(&[t[0].max(t[1]), t[1].max(t[2]), t[2].max(t[0])]);
    }
    chain(list, head, ring);
    stamp.fill(vertices as u16);
    for (u, &start) in head.iter().enumerate() {
        let mut h = start as usize;
        while h < n {
            let x = greater[h] as usize;
            // A value that is chosen, since a branch here is one that no processor foresees.
            let (met, latest) = (stamp[x] as usize, last[x] as usize);
            let previous = if met == u { latest } else { h };
            stamp[x] = u as u16;
            last[x] = h as u16;
            // The link is read before its place takes the ring's.
            let next = ring[h] as usize;
            ring[h] = h as u16;
            ring[h] = ring[previous];
            ring[previous] = h as u16;
            h = next;
        }
    }
}

// Chains the half-edges by their lesser ends: `head[u]` is the first one with the lesser end u, and `link[h]` the next one with
// that of h, each the number of half-edges where there is none.
fn chain(list: &[u16], head: &mut [u16], link: &mut [u16]) {
    head.fill(list.len() as u16);
    for (k, (links, t)) in link.chunks_exact_mut(3).zip(list.chunks_exact(3)).enumerate().rev() {
        let lesser = [t[0].min(t[1]), t[1].min(t[2]), t[2].min(t[0])];
        for side in [2, 1, 0] {
            let head = &mut head[lesser[side] as usize];
            links[side] = *head;
            *head = (3 * k + side) as u16;
        }
    }
}

// The vertex of its triangle that each half-edge does not touch.
fn third_vertices(list: &[u16], thirds: &mut [u16]) {
    for (thirds, t) in thirds.chunks_exact_mut(3).zip(list.chunks_exact(3)) {
        thirds.copy_from_slice(&[t[2], t[0], t[1]]);
    }
}

// The least half-edge with a twin before it: one with the same edge and the same third vertex. On an edge with three and more
// half-edges `stamp[v]` is the last of them where one that was met has the third vertex v.
fn least_twin(ring: &[u16], thirds: &[u16], stamp: &mut [u16]) -> Option<usize> {
    let n = ring.len();
    let thirds = &thirds[..n];
    stamp.fill(n as u16);
    let mut least = n;
    for (h, &next) in ring.iter().enumerate() {
        let next = next as usize;
        if ring[next] as usize == h {
            if thirds[next] == thirds[h] && next < h {
                least = least.min(h);
            }
        } else if next < h {
            let mut x = next;
            loop {
                let stamp = &mut stamp[thirds[x] as usize];
                if *stamp as usize == h {
                    least = least.min(x);
                }
                *stamp = h as u16;
                if x == h {
                    break;
                }
                x = ring[x] as usize;
            }
        }
    }
    (least < n).then_some(least)
}

// Marks the vertices of the triangles.
fn mark_used(list: &[u16], marks: &mut [u16]) {
    marks.fill(0);
    for &corner in list {
        marks[corner as usize] = 1;
    }
}

// Marks the triangles that are reached from `start` over shared edges. An edge with three and more half-edges is opened once,
// however many triangles have it.
fn reach(start: usize, ring: &[u16], reached: &mut [u16], queue: &mut [u16], opened: &mut [u16]) {
    reached.fill(0);
    opened.fill(0);
    reached[start] = 1;
    queue[0] = start as u16;
    let mut next = 0;
    let mut filled = 1;
    while next < filled {
        let k = queue[next] as usize;
        next += 1;
        for h in 3 * k..3 * k + 3 {
            let across = ring[h] as usize;
            if ring[across] as usize == h {
                filled = push(across / 3, filled, reached, queue);
            } else if opened[h] == 0 {
                let mut x = across;
                while x != h {
                    opened[x] = 1;
                    filled = push(x / 3, filled, reached, queue);
                    x = ring[x] as usize;
                }
            }
        }
    }
}

// Marks triangle k and puts it at the end of the queue, where it counts only if it was not marked: so there is no branch, and the
// queue has room for one entry more than there are triangles.
fn push(k: usize, filled: usize, reached: &mut [u16], queue: &mut [u16]) -> usize {
    queue[filled] = k as u16;
    let count = filled + usize::from(reached[k] == 0);
    reached[k] = 1;
    count
}

// The number of the vertex on each half-edge's edge, from `vertices` up in order of first appearance. A half-edge keeps the number
// that it was handed, or gets the next one, and hands it on round its ring. Answers how many edges there are.
fn number_edges(vertices: usize, ring: &[u16], numbers: &mut [u16]) -> usize {
    let none = (vertices + ring.len()) as u16;
    numbers.fill(none);
    let mut edges = 0;
    for (h, &next) in ring.iter().enumerate() {
        let held = numbers[h];
        let number = if held == none { (vertices + edges) as u16 } else { held };
        edges += usize::from(held == none);
        numbers[h] = number;
        numbers[next as usize] = number;
    }
    edges
}

// How many edges there are: each has one last half-edge, from which the ring leads back. Counted in 16 bits, as wide as the links, so
// that several are compared at a time.
fn count_edges(ring: &[u16]) -> usize {
    let leads_back = |(h, &next): (usize, &u16)| u16::from(next <= h as u16);
    usize::from(ring.iter().enumerate().map(leads_back).sum::<u16>())
}

// How many boundary edges there are: the half-edge of one triangle is alone on its ring.
fn count_boundary(ring: &[u16]) -> usize {
    let leads_to_itself = |(h, &next): (usize, &u16)| u16::from(next == h as u16);
    usize::from(ring.iter().enumerate().map(leads_to_itself).sum::<u16>())
}

// The four triangles of each triangle.
fn write_fours(list: &[u16], numbers: &[u16], out: &mut [u16]) {
    for ((four, v), e) in out.chunks_exact_mut(12).zip(list.chunks_exact(3)).zip(numbers.chunks_exact(3)) {
        four.copy_from_slice(&[e[0], e[1], e[2], v[0], e[0], e[2], v[1], e[1], e[0], v[2], e[2], e[1]]);
    }
}
