// The meshes that are measured, of four sizes.
use std::collections::{BTreeMap, BTreeSet};

// How many triangles a mesh to undo has, or a few fewer where it is said so; and the splitting of a mesh to split, which has a
// quarter. The last is the most that a call takes.
pub const SIZES: [usize; 4] = [256, 1_024, 4_096, MOST];
pub const MOST: usize = 16_384;
pub const MOST_TO_SPLIT: usize = MOST / 4;

// A mesh with a triangle that is turned, and one of which half the triangles are.
const TURNED: &str = "turned";
const MIXED: &str = "mixed";

pub const IN_ORDER: &str = "in order";
const SHUFFLED: &str = "shuffled";

// The meshes whose neighbours are near in the list as it is made: all that a call reads, but for those made at random and those
// that it refuses.
pub const MADE_IN_ORDER: [&str; 4] = ["torus", "triangle", "fan", "book"];

#[derive(Clone)]
pub struct Mesh {
    pub name: &'static str,
    pub order: &'static str,
    pub vertices: usize,
    // Three corners for each triangle.
    pub list: Vec<u16>,
    // For each triangle that a splitting made as the centre of four, the corners of the coarse triangle, by their numbers in this
    // mesh and in the order of the centre's own corners. None for the others, and in a mesh that no splitting made.
    pub coarse: Vec<Option<[u16; 3]>>,
}

impl Mesh {
    // Whether the windings alone keep the mesh from being read, or that of which it is a splitting.
    pub fn is_inside_out(&self) -> bool {
        [TURNED, MIXED].contains(&self.name)
    }
}

// The meshes to split.
pub fn to_split(size: usize) -> Vec<Mesh> {
    let mut random = Random::new();
    in_both_orders(of_each_kind(size / 4, &mut random), &mut random)
}

// The meshes to undo: splittings, and those that no role reads.
pub fn to_undo(size: usize) -> Vec<Mesh> {
    let mut random = Random::new();
    let splittings = of_each_kind(size / 4, &mut random).map(|mesh| split_of(&mesh));
    let others = [odd_torus(size)].into_iter().chain(refused(size)).chain(inside_out(size));
    in_both_orders(splittings.into_iter().chain(others), &mut random)
}

// A mesh of each kind with so many triangles, a power of four.
fn of_each_kind(triangles: usize, random: &mut Random) -> [Mesh; 5] {
    let depth = triangles.ilog(4) as usize;
    [torus(triangles), split_times(&triangle(), depth), fan(triangles), book(triangles), glued(triangles, random)]
}

// A mesh to undo several levels of.
pub struct Several {
    pub mesh: Mesh,
    // The mesh that was split at first, which no role reads, and how many times it was split.
    pub first: Mesh,
    pub levels: usize,
}

// The meshes to undo several levels of: as deep as can be, of one level, after which `refused`, `turned` and `mixed` are refused late,
// or of none.
pub fn to_undo_several(size: usize) -> Vec<Several> {
    let mut random = Random::new();
    let coarse = size / 4;
    let depth = size.ilog(4) as usize;
    let once = [fan(coarse), book(coarse), glued(coarse, &mut random)].into_iter().chain(refused(coarse));
    let firsts = [(least_torus(), depth - 2), (triangle(), depth)]
        .into_iter()
        .chain(once.map(|first| (first, 1)))
        .chain([(odd_torus(size), 0)])
        .chain(inside_out(coarse).into_iter().map(|first| (first, 1)));
    let both = |(first, levels): (Mesh, usize)| {
        let orders = in_both_orders([split_times(&first, levels)], &mut random);
        orders.into_iter().map(move |mesh| Several { mesh, first: first.clone(), levels })
    };
    firsts.flat_map(both).collect()
}

// The meshes to write as texts and to read from them, of which the numbers alone matter.
pub fn to_write(size: usize) -> Vec<Mesh> {
    in_both_orders([torus(size)], &mut Random::new())
}

// A text of a mesh in one spelling, by the name that the mesh then has.
pub type Spelling = (&'static str, Vec<u8>);

// The frames of a mesh in the normal spelling, by the formatting of the standard library.
pub fn frames(mesh: &Mesh) -> Vec<u8> {
    let lines = mesh.list.chunks_exact(3).map(|t| format!("46{:04X}{:04X}{:04X}\n", t[0], t[1], t[2]));
    [format!("4D{:04X}{:04X}\n", mesh.vertices, mesh.list.len() / 3)].into_iter().chain(lines).collect::<String>().into_bytes()
}

// The frames of a mesh that are read: the normal spelling; all in lower case with CR LF, as some apps write it; and the case of each
// digit and the end of each line by chance.
pub fn frame_texts(mesh: &Mesh) -> [Spelling; 3] {
    let normal = frames(mesh);
    let lower = respelt(&normal, || true);
    let mut random = Random::new();
    let either = respelt(&normal, || random.below(2) == 0);
    [(mesh.name, normal), ("lower", lower), ("either", either)]
}

// The same frames with lower case instead of upper and CR LF instead of LF, wherever it is said so.
fn respelt(frames: &[u8], mut is_changed: impl FnMut() -> bool) -> Vec<u8> {
    let mut respelt = Vec::new();
    for &byte in frames {
        match byte {
            _ if !is_changed() => respelt.push(byte),
            b'\n' => respelt.extend(b"\r\n"),
            _ => respelt.push(byte.to_ascii_lowercase()),
        }
    }
    respelt
}

// The index text of a mesh in the normal spelling, by the formatting of the standard library.
pub fn index_text(mesh: &Mesh) -> Vec<u8> {
    let faces = mesh.list.chunks_exact(3).map(|t| format!("{} {} {} -1", t[0], t[1], t[2]));
    faces.collect::<Vec<_>>().join(" ").into_bytes()
}

// The index texts of a mesh that are read: the normal spelling, and one as exporters write it, with a comment at the head, commas,
// and a line for each face.
pub fn index_texts(mesh: &Mesh) -> [Spelling; 2] {
    let lines = mesh.list.chunks_exact(3).map(|t| format!("\t{}, {}, {}, -1,\n", t[0], t[1], t[2]));
    let exported = [format!("# {} vertices\n", mesh.vertices)].into_iter().chain(lines).collect::<String>().into_bytes();
    [(mesh.name, index_text(mesh)), ("exported", exported)]
}

// Each mesh in the order that its making gives and shuffled, always the same ones.
fn in_both_orders(meshes: impl IntoIterator<Item = Mesh>, random: &mut Random) -> Vec<Mesh> {
    let both = |mesh| {
        let other = shuffled(&mesh, random);
        [mesh, other]
    };
    meshes.into_iter().flat_map(both).collect()
}

fn mesh(name: &'static str, vertices: usize, triangles: Vec<[usize; 3]>) -> Mesh {
    let coarse = vec![None; triangles.len()];
    let list = triangles.into_iter().flatten().map(|corner| corner as u16).collect();
    Mesh { name, order: IN_ORDER, vertices, list, coarse }
}

// A mesh as programs have it: every edge in two triangles, six triangles at a vertex, neighbours near in the list.
fn torus(triangles: usize) -> Mesh {
    let (wide, high) = sides(triangles);
    torus_of("torus", wide, high)
}

// One with an odd side, a column smaller. Each role reaches half of the tiles, twice as many as it may. With two odd sides it
// would reach all, but the triangles would be no multiple of four, and no role would be tried.
fn odd_torus(triangles: usize) -> Mesh {
    let (wide, high) = sides(triangles);
    torus_of("odd", wide - 1, high)
}

// One whose last triangle is turned, and one of which each is turned or not by chance. Each role has a reading but for that: all four
// are tried to the end. Behind a torus of fewer than 256 triangles, which is at most four vertices high, there is none.
fn inside_out(triangles: usize) -> Vec<Mesh> {
    if triangles < 256 {
        return Vec::new();
    }
    let mut random = Random::new();
    vec![turned_torus(TURNED, triangles, |k| k == triangles - 1), turned_torus(MIXED, triangles, |_| random.below(2) == 0)]
}

fn turned_torus(name: &'static str, triangles: usize, mut is_turned: impl FnMut(usize) -> bool) -> Mesh {
    let mut mesh = Mesh { name, ..torus(triangles) };
    let turned = mesh.list.chunks_exact_mut(3).enumerate().filter(|&(k, _)| is_turned(k));
    turned.for_each(|(_, three)| three[1..].reverse());
    mesh
}

// Of a torus of so many triangles that is twice as wide as high.
fn sides(triangles: usize) -> (usize, usize) {
    let high = (triangles / 4).isqrt();
    (2 * high, high)
}

fn torus_of(name: &'static str, wide: usize, high: usize) -> Mesh {
    let vertex = |x: usize, y: usize| (y % high) * wide + x % wide;
    let quad = |x: usize, y: usize| [vertex(x, y), vertex(x + 1, y), vertex(x + 1, y + 1), vertex(x, y + 1)];
    let quads = (0..high).flat_map(|y| (0..wide).map(move |x| quad(x, y)));
    mesh(name, wide * high, quads.flat_map(|[a, b, c, d]| [[a, b, c], [a, c, d]]).collect())
}

// All triangles at one vertex, so that in order one chain of half-edges, that of the lesser end 0, has two of each.
fn fan(triangles: usize) -> Mesh {
    let rim = |k: usize| 1 + k % triangles;
    mesh("fan", 1 + triangles, (0..triangles).map(|k| [0, rim(k), rim(k + 1)]).collect())
}

// All triangles on one edge, which has a half-edge of each.
fn book(triangles: usize) -> Mesh {
    mesh("book", 2 + triangles, (0..triangles).map(|k| [0, 1, 2 + k]).collect())
}

// Each triangle is glued to a random edge of those before it, two times of three with a new vertex, else with a random old one.
fn glued(size: usize, random: &mut Random) -> Mesh {
    let mut triangles = vec![[0, 1, 2]];
    let mut vertices = 3;
    let mut known = BTreeSet::from([[0, 1, 2]]);
    while triangles.len() < size {
        let [p, q, r] = triangles[random.below(triangles.len())];
        let [a, b] = [[p, q], [q, r], [r, p]][random.below(3)];
        let closes = random.below(3) == 0;
        let c = if closes { random.below(vertices) } else { vertices };
        // The other way round on the edge, as neighbours are that face the same side.
        let triangle = [b, a, c];
        let mut corners = triangle;
        corners.sort();
        if c == a || c == b || !known.insert(corners) {
            continue;
        }
        triangles.push(triangle);
        vertices = vertices.max(c + 1);
    }
    mesh("random", vertices, triangles)
}

fn triangle() -> Mesh {
    mesh("triangle", 3, vec![[0, 1, 2]])
}

// A torus of 16 triangles on 8 vertices, six at each, whose edges are the pairs of vertices that are 1, 2 or 3 apart in a circle.
fn least_torus() -> Mesh {
    let after = |vertex: usize, places: usize| (vertex + places) % 8;
    mesh("torus", 8, (0..8).flat_map(|a| [[a, after(a, 1), after(a, 3)], [a, after(a, 3), after(a, 2)]]).collect())
}

// A mesh that all four roles refuse, and late. A torus has a reading in each role: the vertices that it keeps are those with x even
// or odd and y even or odd. Of each of these four sorts seven vertices are made one, near the end of the list, a vertex and the six
// that each have two neighbours of the same sort in common with it. So in each role the coarse mesh has 6 vertices and 18 edges
// fewer, as many as the whole mesh has lost, and only the vertices of the other three sorts, which would need several numbers,
// tell. A torus of fewer than 4,096 triangles has no room for that.
fn refused(triangles: usize) -> Option<Mesh> {
    const RING: [(isize, isize); 6] = [(4, 2), (2, 4), (-2, 2), (-4, -2), (-2, -4), (2, -2)];
    if triangles < 4_096 {
        return None;
    }
    let (wide, high) = sides(triangles);
    let mut mesh = torus_of("refused", wide, high);
    for (i, j) in [(0, 0), (1, 0), (0, 1), (1, 1)] {
        let (x, y) = (wide / 8 + wide / 2 * i + (wide / 4 + 1) * j, high - 6 + i);
        let ring = RING.map(|(dx, dy)| y.wrapping_add_signed(dy) * wide + x.wrapping_add_signed(dx));
        for corner in mesh.list.iter_mut().filter(|corner| ring.contains(&(**corner as usize))) {
            *corner = (y * wide + x) as u16;
        }
    }
    let used: BTreeSet<u16> = mesh.list.iter().copied().collect();
    let ranks: BTreeMap<u16, u16> = used.into_iter().zip(0..).collect();
    mesh.list = mesh.list.iter().map(|corner| ranks[corner]).collect();
    mesh.vertices = ranks.len();
    Some(mesh)
}

fn split_of(mesh: &Mesh) -> Mesh {
    let (vertices, list) = splitting(mesh.vertices, &mesh.list);
    let coarse = mesh.list.chunks_exact(3).flat_map(|t| [Some([t[0], t[1], t[2]]), None, None, None]).collect();
    Mesh { vertices, list, coarse, ..*mesh }
}

fn split_times(mesh: &Mesh, times: usize) -> Mesh {
    (0..times).fold(mesh.clone(), |mesh, _| split_of(&mesh))
}

// The splitting of a list, by a map of edges that no version has: how many vertices it has, and its triangles.
pub fn splitting(vertices: usize, list: &[u16]) -> (usize, Vec<u16>) {
    let mut numbers = BTreeMap::new();
    let mut fours = Vec::new();
    for t in list.chunks_exact(3) {
        let [e12, e23, e31] = [[t[0], t[1]], [t[1], t[2]], [t[2], t[0]]].map(|mut edge| {
            edge.sort();
            let next = u16::try_from(vertices + numbers.len()).expect("the splitting has too many vertices");
            *numbers.entry(edge).or_insert(next)
        });
        fours.extend([[e12, e23, e31], [t[0], e12, e31], [t[1], e23, e12], [t[2], e31, e23]].concat());
    }
    (vertices + numbers.len(), fours)
}

// How many edges a list has, and how many of them are in one triangle, by another such map.
pub fn edge_counts(list: &[u16]) -> (u64, u64) {
    let mut triangles_at = BTreeMap::new();
    for t in list.chunks_exact(3) {
        for mut edge in [[t[0], t[1]], [t[1], t[2]], [t[2], t[0]]] {
            edge.sort();
            *triangles_at.entry(edge).or_insert(0) += 1;
        }
    }
    (triangles_at.len() as u64, triangles_at.values().filter(|&&triangles| triangles == 1).count() as u64)
}

// The same mesh with its triangles in random order, its vertices numbered at random, and the corners of each triangle rotated.
fn shuffled(mesh: &Mesh, random: &mut Random) -> Mesh {
    let mut renamed: Vec<u16> = (0..mesh.vertices as u16).collect();
    random.shuffle(&mut renamed);
    let corners = mesh.list.chunks_exact(3).map(|t| [t[0], t[1], t[2]]);
    let mut triangles: Vec<([u16; 3], Option<[u16; 3]>)> = corners.zip(mesh.coarse.iter().copied()).collect();
    random.shuffle(&mut triangles);
    for (triangle, coarse) in &mut triangles {
        let places = random.below(3);
        for three in [Some(triangle), coarse.as_mut()].into_iter().flatten() {
            *three = three.map(|corner| renamed[corner as usize]);
            three.rotate_left(places);
        }
    }
    let (triangles, coarse): (Vec<_>, Vec<_>) = triangles.into_iter().unzip();
    Mesh { order: SHUFFLED, list: triangles.concat(), coarse, ..*mesh }
}

// Marsaglia's xorshift of 64 bits: the meshes must be the same in every run, and on every machine.
struct Random(u64);

impl Random {
    fn new() -> Random {
        Random(0x9e37_79b9_7f4a_7c15)
    }

    fn below(&mut self, n: usize) -> usize {
        self.0 ^= self.0 << 13;
        self.0 ^= self.0 >> 7;
        self.0 ^= self.0 << 17;
        // The upper bits: the lower ones are the weaker.
        ((self.0 >> 32) % n as u64) as usize
    }

    fn shuffle<T>(&mut self, entries: &mut [T]) {
        for i in (1..entries.len()).rev() {
            entries.swap(i, self.below(i + 1));
        }
    }
}
