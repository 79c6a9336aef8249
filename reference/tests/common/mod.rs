//! Small meshes of all kinds, made with a small generator of random numbers.
#![allow(dead_code)]

use reference::{proper, split, Reading};
use std::collections::{BTreeMap, BTreeSet};

/// A small generator of random numbers (splitmix64), with a fixed seed.
pub struct Random(pub u64);

impl Random {
    pub fn next(&mut self) -> u64 {
        self.0 = self.0.wrapping_add(0x9E37_79B9_7F4A_7C15);
        let mut z = self.0;
        z = (z ^ (z >> 30)).wrapping_mul(0xBF58_476D_1CE4_E5B9);
        z = (z ^ (z >> 27)).wrapping_mul(0x94D0_49BB_1331_11EB);
        z ^ (z >> 31)
    }

    /// A number below `n`.
    pub fn below(&mut self, n: usize) -> usize {
        (self.next() % n as u64) as usize
    }

    pub fn shuffle<T>(&mut self, items: &mut [T]) {
        for i in (1..items.len()).rev() {
            items.swap(i, self.below(i + 1));
        }
    }
}

/// A vertex count and the triangles.
pub type Mesh = (u16, Vec<[u16; 3]>);

pub fn list(mesh: &Mesh) -> Vec<u16> {
    mesh.1.iter().flatten().copied().collect()
}

pub fn is_proper(mesh: &Mesh) -> bool {
    proper(mesh.0.into(), &list(mesh))
}

pub fn split_of(mesh: &Mesh) -> Mesh {
    let l = list(mesh);
    let (a, fine) = split(mesh.0.into(), &l, 4 * l.len(), &[]);
    assert_eq!(a.refusal, 0);
    (a.vertices as u16, fine.chunks(3).map(|t| [t[0], t[1], t[2]]).collect())
}

pub fn has(mesh: &Mesh, t: [u16; 3]) -> bool {
    let set = |t: [u16; 3]| BTreeSet::from(t);
    mesh.1.iter().any(|&u| set(u) == set(t))
}

/// A connected mesh of `f` triangles: each is put on an edge of an earlier one, its third corner new, or, in `old` of 100 tries, an
/// old vertex. One in ten runs through this edge the same way as the earlier one, the others the opposite way. With `manifold`, edges
/// get no third triangle, and there are fewer triangles if the mesh closes before.
pub fn random_mesh(r: &mut Random, f: usize, old: usize, manifold: bool) -> Mesh {
    let mut mesh: Mesh = (3, vec![[0, 1, 2]]);
    for _ in 0..100 * f {
        if mesh.1.len() == f {
            break;
        }
        let t = mesh.1[r.below(mesh.1.len())];
        let i = r.below(3);
        let (p, q) = (t[i], t[(i + 1) % 3]);
        let third = if r.below(100) < old { r.below(mesh.0.into()) as u16 } else { mesh.0 };
        let full = |x, y| mesh.1.iter().filter(|t| t.contains(&x) && t.contains(&y)).count() >= 2;
        if third == p || third == q || has(&mesh, [p, q, third]) {
            continue;
        }
        if manifold && (full(p, q) || full(q, third) || full(third, p)) {
            continue;
        }
        mesh.0 = mesh.0.max(third + 1);
        mesh.1.push(if r.below(10) == 0 { [p, q, third] } else { [q, p, third] });
    }
    mesh
}

/// `f` triangles on one edge.
pub fn book(f: u16) -> Mesh {
    (f + 2, (0..f).map(|k| [0, 1, k + 2]).collect())
}

/// `f` triangles around vertex 0, closed or not.
pub fn fan(f: u16, closed: bool) -> Mesh {
    let around = if closed { f } else { f + 1 };
    (around + 1, (0..f).map(|k| [0, 1 + k, 1 + (k + 1) % around]).collect())
}

/// A strip of `f` triangles.
pub fn strip(f: u16) -> Mesh {
    (f + 2, (0..f).map(|k| [k, k + 1, k + 2]).collect())
}

/// A strip of `f` triangles that closes to a band: a Moebius band if `f` is odd.
pub fn band(f: u16) -> Mesh {
    (f, (0..f).map(|k| [k, (k + 1) % f, (k + 2) % f]).collect())
}

/// A regular torus of `m` by `n`, the second way shifted by `shift`.
pub fn torus(m: u16, n: u16, shift: u16) -> Mesh {
    let at = |i: u16, j: u16| if i < m { i * n + j % n } else { (i - m) * n + (j + shift) % n };
    let mut triangles = Vec::new();
    for i in 0..m {
        for j in 0..n {
            triangles.push([at(i, j), at(i + 1, j), at(i + 1, j + 1)]);
            triangles.push([at(i, j), at(i + 1, j + 1), at(i, j + 1)]);
        }
    }
    (m * n, triangles)
}

pub fn tetrahedron() -> Mesh {
    (4, vec![[0, 1, 2], [0, 2, 3], [0, 3, 1], [1, 3, 2]])
}

pub fn octahedron() -> Mesh {
    (6, vec![[0, 1, 2], [0, 2, 3], [0, 3, 4], [0, 4, 1], [5, 2, 1], [5, 3, 2], [5, 4, 3], [5, 1, 4]])
}

/// The projective plane of 6 vertices and 10 triangles.
pub fn projective_plane() -> Mesh {
    let faces = [[0, 1, 2], [0, 2, 3], [0, 3, 4], [0, 4, 5], [0, 5, 1], [1, 2, 4], [2, 3, 5], [3, 4, 1], [4, 5, 2], [5, 1, 3]];
    (6, faces.to_vec())
}

/// The torus of 7 vertices and 14 triangles.
pub fn seven_vertex_torus() -> Mesh {
    (7, (0..7).flat_map(|k| [[k, (k + 1) % 7, (k + 3) % 7], [k, (k + 2) % 7, (k + 3) % 7]]).collect())
}

/// All three-element subsets of `n` vertices, the first `f` of them in a random order (often not proper).
pub fn dense(r: &mut Random, n: u16, f: usize) -> Mesh {
    let mut all = Vec::new();
    for a in 0..n {
        for b in 0..a {
            for c in 0..b {
                all.push([a, b, c]);
            }
        }
    }
    r.shuffle(&mut all);
    all.truncate(f);
    compact((n, all))
}

/// Without the vertices that are in no triangle.
pub fn compact(mesh: Mesh) -> Mesh {
    let used: Vec<u16> = mesh.1.iter().flatten().copied().collect::<BTreeSet<_>>().into_iter().collect();
    let to = |v: u16| used.binary_search(&v).unwrap() as u16;
    (used.len() as u16, mesh.1.iter().map(|t| t.map(to)).collect())
}

/// Vertices renumbered, some triangles turned over, triangles reordered and rotated.
pub fn disguise(r: &mut Random, mesh: &Mesh) -> Mesh {
    let mut to: Vec<u16> = (0..mesh.0).collect();
    r.shuffle(&mut to);
    let mut triangles: Vec<[u16; 3]> = mesh.1.iter().map(|t| t.map(|v| to[usize::from(v)])).collect();
    turn_some(r, &mut triangles);
    r.shuffle(&mut triangles);
    for t in &mut triangles {
        t.rotate_left(r.below(3));
    }
    (mesh.0, triangles)
}

/// Turns over one triangle, or any tiles of a splitting (four triangles after one another), or any triangles; in half of the tries none.
fn turn_some(r: &mut Random, triangles: &mut [[u16; 3]]) {
    match r.below(6) {
        0 => {
            let k = r.below(triangles.len());
            triangles[k] = turned(triangles[k]);
        }
        1 => triangles.chunks_mut(4).filter(|_| r.below(2) == 0).flatten().for_each(|t| *t = turned(*t)),
        2 => triangles.iter_mut().filter(|_| r.below(2) == 0).for_each(|t| *t = turned(*t)),
        _ => {}
    }
}

/// The vertex `from` replaced by `to` in the triangles of the given numbers.
pub fn replace(mesh: &mut Mesh, triangles: std::ops::Range<usize>, from: u16, to: u16) {
    for v in mesh.1[triangles].iter_mut().flatten() {
        if *v == from {
            *v = to;
        }
    }
    mesh.0 = mesh.0.max(to + 1);
}

/// A small coarse mesh of up to `most` triangles.
pub fn coarse(r: &mut Random, most: usize) -> Mesh {
    let f = 1 + r.below(most);
    let n = f as u16;
    match r.below(8) {
        0 => book(n),
        1 => fan(n, n >= 3),
        2 => strip(n),
        3 if f >= 4 => tetrahedron(),
        4 => random_mesh(r, f, 20, true),
        5 => random_mesh(r, f, 70, false),
        _ => random_mesh(r, f, 40, false),
    }
}

/// The kinds of meshes; the name and the mesh, which need not be proper.
pub fn make(r: &mut Random, kind: usize) -> (&'static str, Mesh) {
    match kind {
        0 => ("random connected", {
            let (f, old) = (1 + r.below(16), r.below(80));
            random_mesh(r, f, old, false)
        }),
        1 => ("random manifold edges", {
            let (f, old) = (1 + r.below(16), r.below(50));
            random_mesh(r, f, old, true)
        }),
        2 => ("random of 4, 8, 12, 16", {
            let (f, old, manifold) = (4 + 4 * r.below(4), r.below(80), r.below(2) == 0);
            random_mesh(r, f, old, manifold)
        }),
        3 => ("dense", {
            let n = 4 + r.below(5);
            let f = 4 * (1 + r.below(3));
            dense(r, n as u16, f)
        }),
        4 => ("named", {
            let f = 3 + r.below(14) as u16;
            let mesh = match r.below(12) {
                0 => book(f),
                1 => fan(f, false),
                2 => fan(f, true),
                3 => strip(f),
                4 => band(f.max(5)),
                5 => tetrahedron(),
                6 => octahedron(),
                7 => projective_plane(),
                8 => seven_vertex_torus(),
                9 => torus(3, 3, r.below(3) as u16),
                10 => torus(4, 4, r.below(4) as u16),
                _ => torus(2, 4, r.below(4) as u16),
            };
            disguise(r, &mesh)
        }),
        5 => ("split", {
            let mesh = split_of(&coarse(r, 4));
            disguise(r, &mesh)
        }),
        6 => ("split, not disguised", split_of(&coarse(r, 4))),
        7 => ("split, one entry changed", {
            let mut mesh = split_of(&coarse(r, 4));
            let (k, i) = (r.below(mesh.1.len()), r.below(3));
            mesh.1[k][i] = r.below(usize::from(mesh.0) + 1) as u16;
            disguise(r, &compact(mesh))
        }),
        8 => ("split, a tile disagrees", {
            let mut mesh = split_of(&coarse(r, 4));
            let j = r.below(mesh.1.len() / 4);
            let from = mesh.1[4 * j][r.below(3)];
            let to = r.below(usize::from(mesh.0) + 1) as u16;
            replace(&mut mesh, 4 * j..4 * j + 4, from, to);
            disguise(r, &compact(mesh))
        }),
        9 => ("split, two vertices become one", {
            let mut mesh = split_of(&coarse(r, 4));
            let (from, to) = (r.below(mesh.0.into()) as u16, r.below(mesh.0.into()) as u16);
            let all = mesh.1.len();
            replace(&mut mesh, 0..all, from, to);
            disguise(r, &compact(mesh))
        }),
        10 => ("split, one vertex becomes two", {
            let mut mesh = split_of(&coarse(r, 4));
            let from = r.below(mesh.0.into()) as u16;
            let to = mesh.0;
            for k in 0..mesh.1.len() {
                if r.below(2) == 0 {
                    replace(&mut mesh, k..k + 1, from, to);
                }
            }
            disguise(r, &compact(mesh))
        }),
        11 => ("split, triangles taken out and put in", {
            let mut mesh = split_of(&coarse(r, 3));
            let times = 1 + r.below(4);
            for _ in 0..times {
                if mesh.1.len() > 4 && r.below(2) == 0 {
                    let k = r.below(mesh.1.len());
                    mesh.1.swap_remove(k);
                } else {
                    let t = mesh.1[r.below(mesh.1.len())];
                    mesh.1.push([t[0], t[1], r.below(usize::from(mesh.0) + 1) as u16]);
                    mesh.0 = mesh.0.max(mesh.1[mesh.1.len() - 1][2] + 1);
                }
            }
            disguise(r, &compact(mesh))
        }),
        12 => ("tiles put together at random", {
            // tiles whose edge vertices and corners come from a small stock: the counts may be right, the tiles need not fit
            let (tiles, stock) = (1 + r.below(4), 6 + r.below(10));
            let mut mesh: Mesh = (stock as u16, Vec::new());
            for _ in 0..tiles {
                let mut v: Vec<u16> = (0..stock as u16).collect();
                r.shuffle(&mut v);
                mesh.1.extend([[v[3], v[4], v[5]], [v[0], v[3], v[5]], [v[1], v[4], v[3]], [v[2], v[5], v[4]]]);
            }
            disguise(r, &compact(mesh))
        }),
        13 => ("tiles on a coarse multigraph", {
            // tiles over vertices of which a few are kept, each pair with one or two vertices between: some agree, some do not
            let (tiles, corners) = (2 + r.below(3), 3 + r.below(3) as u16);
            let mut between: BTreeMap<(u16, u16, usize), u16> = BTreeMap::new();
            let mut mesh: Mesh = (corners, Vec::new());
            for _ in 0..tiles {
                let mut v: Vec<u16> = (0..corners).collect();
                r.shuffle(&mut v);
                let e: Vec<u16> = [(0, 1), (1, 2), (2, 0)]
                    .iter()
                    .map(|&(p, q): &(usize, usize)| {
                        let which = usize::from(r.below(6) == 0);
                        let next = mesh.0;
                        let x = *between.entry((v[p].min(v[q]), v[p].max(v[q]), which)).or_insert(next);
                        mesh.0 = mesh.0.max(x + 1);
                        x
                    })
                    .collect();
                mesh.1.extend([[e[0], e[1], e[2]], [v[0], e[0], e[2]], [v[1], e[1], e[0]], [v[2], e[2], e[1]]]);
            }
            disguise(r, &compact(mesh))
        }),
        14 => ("splits of closed surfaces and larger tori", {
            let mesh = match r.below(6) {
                0 => split_of(&tetrahedron()),
                1 => split_of(&octahedron()),
                2 => split_of(&projective_plane()),
                3 => split_of(&seven_vertex_torus()),
                4 => torus(6, 6, 2 * r.below(3) as u16),
                _ => split_of(&band(5 + r.below(4) as u16)),
            };
            disguise(r, &mesh)
        }),
        _ => ("two splits of one triangle or fin", {
            let mesh = split_of(&split_of(&book(1 + r.below(2) as u16)));
            disguise(r, &mesh)
        }),
    }
}

pub const KINDS: usize = 16;

pub fn sorted(mut t: [u16; 3]) -> [u16; 3] {
    t.sort_unstable();
    t
}

/// The triangle turned over.
pub fn turned([a, b, c]: [u16; 3]) -> [u16; 3] {
    [a, c, b]
}

/// The corners rotated so that the least one comes first: equal for two triangles exactly when they agree up to rotation of corners.
pub fn least_first(mut t: [u16; 3]) -> [u16; 3] {
    while t[0] > t[1] || t[0] > t[2] {
        t.rotate_left(1);
    }
    t
}

/// The mesh with its triangles turned over in all ways.
pub fn turnings(mesh: &Mesh) -> Vec<Mesh> {
    let turn = |set: usize| move |(k, &t): (usize, &[u16; 3])| if set >> k & 1 == 1 { turned(t) } else { t };
    (0..1 << mesh.1.len()).map(|set| (mesh.0, mesh.1.iter().enumerate().map(turn(set)).collect())).collect()
}

/// The coarse mesh of a reading.
pub fn coarse_of(reading: &Reading) -> Mesh {
    (reading.vertices as u16, reading.mesh.chunks(3).map(|t| [t[0], t[1], t[2]]).collect())
}

/// The input triangles, upward, that do not agree up to rotation of corners with those of the splitting to which they are matched.
pub fn disagreeing(input: &Mesh, reading: &Reading) -> Vec<usize> {
    let fine = split_of(&coarse_of(reading));
    let image = |k: usize| input.1[k].map(|v| reading.vertex_map[usize::from(v)]);
    let matched = |k: usize| fine.1[usize::from(reading.triangle_map[k])];
    (0..input.1.len()).filter(|&k| least_first(image(k)) != least_first(matched(k))).collect()
}

/// All ways to order `0..n`.
fn orders(n: u16) -> Vec<Vec<u16>> {
    if n == 0 {
        return vec![vec![]];
    }
    let shorter = orders(n - 1);
    (0..usize::from(n)).flat_map(|i| shorter.iter().map(move |o| [&o[..i], &[n - 1], &o[i..]].concat())).collect()
}

/// All proper meshes of `f` triangles, one for each way up to renumbering: connected ones have at most f + 2 vertices.
pub fn coarse_meshes(f: usize) -> Vec<Mesh> {
    let mut all = Vec::new();
    for n in 3..=f as u16 + 2 {
        let mut triangles = Vec::new();
        for c in 0..n {
            for b in 0..c {
                for a in 0..b {
                    triangles.push([a, b, c]);
                }
            }
        }
        let renumberings = orders(n);
        let mut seen = BTreeSet::new();
        for choice in choices(triangles.len(), f) {
            let mesh: Mesh = (n, choice.iter().map(|&i| triangles[i]).collect());
            if is_proper(&mesh) && !seen.contains(&mesh.1) {
                for to in &renumberings {
                    let mut other: Vec<_> = mesh.1.iter().map(|t| sorted(t.map(|v| to[usize::from(v)]))).collect();
                    // in the order of `triangles`: by the last vertex, then the second, then the first
                    other.sort_by_key(|t| (t[2], t[1], t[0]));
                    seen.insert(other);
                }
                all.push(mesh);
            }
        }
    }
    all
}

/// All sets of `k` numbers below `n`, each upward.
fn choices(n: usize, k: usize) -> Vec<Vec<usize>> {
    if k == 0 {
        return vec![vec![]];
    }
    let with_last = |last| choices(last, k - 1).into_iter().map(move |c| [&c[..], &[last]].concat());
    (0..n).flat_map(with_last).collect()
}

/// Every one-to-one match of the vertices of `fine` with those of the input for which all triangles are matched. The matches are
/// tried vertex by vertex, in the order in which the vertices stand in `fine`, and given up when a whole triangle of `fine` is
/// matched to what is no triangle of the input.
pub fn matches(input: &Mesh, fine: &Mesh) -> Vec<Vec<u16>> {
    let n = usize::from(input.0);
    let mut is_triangle = vec![false; n * n * n];
    for [a, b, c] in input.1.iter().map(|t| t.map(usize::from)) {
        for [p, q, r] in [[a, b, c], [a, c, b], [b, a, c], [b, c, a], [c, a, b], [c, b, a]] {
            is_triangle[(p * n + q) * n + r] = true;
        }
    }
    let mut seen: Vec<u16> = Vec::new();
    let mut order: Vec<(u16, Vec<[u16; 3]>)> = Vec::new();
    for &v in fine.1.iter().flatten() {
        if !seen.contains(&v) {
            seen.push(v);
            let whole_with_v = |t: &&[u16; 3]| t.contains(&v) && t.iter().all(|u| seen.contains(u));
            order.push((v, fine.1.iter().filter(whole_with_v).copied().collect()));
        }
    }
    let mut found = Vec::new();
    let mut to = vec![u16::MAX; fine.0.into()];
    go(n, &is_triangle, &order, &mut to, &mut found);
    found
}

/// Tries the vertices of `order`, each of them with the triangles that are whole with it.
fn go(n: usize, is_triangle: &[bool], order: &[(u16, Vec<[u16; 3]>)], to: &mut Vec<u16>, found: &mut Vec<Vec<u16>>) {
    let Some(((v, whole), rest)) = order.split_first() else {
        found.push(to.clone());
        return;
    };
    for x in 0..n as u16 {
        if to.contains(&x) {
            continue;
        }
        to[usize::from(*v)] = x;
        let fits = |t: &[u16; 3]| {
            let [p, q, r] = t.map(|v| usize::from(to[usize::from(v)]));
            is_triangle[(p * n + q) * n + r]
        };
        if whole.iter().all(fits) {
            go(n, is_triangle, rest, to, found);
        }
        to[usize::from(*v)] = u16::MAX;
    }
}
