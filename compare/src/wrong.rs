// A small implementation of the calls over hash maps, with a fault that can be chosen: what the comparison must catch. Without a
// fault it must pass.
use std::collections::{BTreeMap, BTreeSet, HashMap, HashSet};

use flatcarol::raw::{Answer, FramesAnswer, OneAnswer, OneOutputs, SeveralAnswer, TextAnswer};
use flatcarol::raw::{Work, ONE_WORK, SEVERAL_WORK, SPLIT_WORK};

use crate::calls::{Calls, Library};
use crate::meshes::{splitting, Mesh};

macro_rules! faults {
    ($($fault:ident,)*) => {
        #[derive(Clone, Copy, Debug, PartialEq, Eq)]
        pub enum Fault {
            $($fault,)*
        }

        pub const FAULTS: &[Fault] = &[$(Fault::$fault),*];
    };
}

faults! {
    None,
    // Errors that document 01 names, and their like.
    CountingOnly,
    RegularEdgesOnly,
    RoleZeroOnly,
    LabelsWithoutLastCheck,
    MapsTooEarly,
    WorkLeftDirty,
    GreatestRole,
    StopsOneLevelEarly,
    // In answers.
    PlaceOffByOne,
    RolesBehindTheLast,
    CornersRotated,
    // In windings.
    CornersAsASet,
    LastCornerNotCompared,
    FirstCornersMustAgree,
    NeighboursMustAgree,
    ElevenForFifteen,
    FifteenByAnyRole,
    OldRuleHidesAGreaterRole,
    PlaceInTheGreatestRole,
    PlaceOfTheGreatestTurned,
    PlaceInTheSplitting,
    PlaceOfATurnedCentre,
    SeveralByTheOldRule,
    SeveralRefusesFifteen,
    // In the counts of edges.
    SingularEdgesAreBoundary,
    EdgesOfEachTriangle,
    SplitBoundaryNotDoubled,
    EdgesOfTheInput,
    BoundaryHalvedOnce,
    EdgesInARefusal,
    // In judging.
    WindingCounts,
    JudgesOverRegularEdges,
    OneTriangleTooMany,
    VerticesIn32Bits,
    AskedIn8Bits,
    OneWorkBufferNotJudged,
    // In buffers.
    EntryTooMany,
    ReadsPastTheList,
    // In the digits of frames.
    NeighbourReadAsADigit,
    LowerCaseRefused,
    LowerCaseReadAsAnother,
    LowerCaseKindRefused,
    CasesMustAgree,
    LowerCaseWritten,
    // In the line ends of frames.
    LastLineWithoutEnd,
    ReturnRefused,
    ReturnEndsALine,
    TwoReturnsEndALine,
    ReturnAfterTheLastIgnored,
    LineEndsMustAgree,
    WrongEndAtTheNextLine,
    // In index texts.
    NumbersWrap,
    CommentsEndAtLineFeedOnly,
    MissingBeforeTrailingBlanks,
    SizeBeforeText,
    RoomForTheLongest,
    BlankAfterTheLast,
}

pub struct Wrong(pub Fault);

// The triangles on each edge, whose lesser end stands first.
type Edges = HashMap<(u16, u16), Vec<usize>>;

// A refusal's number and place.
type Refusal = (u64, u64);

// What an undo makes of a role, whether it has been found to be a reading but for windings, and then the place of refusal 15, if that
// is due.
struct Undone {
    coarse: Mesh,
    vertex_map: Vec<u16>,
    triangle_map: Vec<u16>,
    role: u64,
    is_reading: bool,
    inside_out: Option<u64>,
}

impl Wrong {
    fn has(&self, fault: Fault) -> bool {
        self.0 == fault
    }

    fn asked(&self, asked: u64) -> u64 {
        if self.has(Fault::AskedIn8Bits) {
            asked as u8 as u64
        } else {
            asked
        }
    }

    // Refusals 2 to 10. `lent` has each buffer's length beside what is needed of it.
    fn refusal(&self, vertices: u64, list: &[u16], most: usize, lent: &[(usize, u64)]) -> Option<Refusal> {
        let vertices = if self.has(Fault::VerticesIn32Bits) { vertices as u32 as u64 } else { vertices };
        let most = most + self.has(Fault::OneTriangleTooMany) as usize;
        let by_size = [
            (2, !list.len().is_multiple_of(3)),
            (3, list.is_empty()),
            (4, list.len() / 3 > most || vertices > 32_767),
            (5, lent.iter().any(|&(length, needed)| (length as u64) < needed)),
        ];
        let refused = by_size.into_iter().find(|&(_, refused)| refused).map(|(number, _)| (number, 0));
        refused.or_else(|| self.improper(vertices as usize, &triangles_of(list)))
    }

    // Refusals 6 to 10.
    fn improper(&self, vertices: usize, triangles: &[[u16; 3]]) -> Option<Refusal> {
        let at = |number: u64, place: Option<usize>| place.map(|place| (number, place as u64));
        let mut seen = HashSet::new();
        at(6, triangles.iter().position(|triangle| triangle.iter().any(|&corner| corner as usize >= vertices)))
            .or_else(|| at(7, triangles.iter().position(|[a, b, c]| a == b || b == c || c == a)))
            .or_else(|| at(8, triangles.iter().position(|&triangle| !seen.insert(self.same_as(triangle)))))
            .or_else(|| {
                let used: HashSet<u16> = triangles.iter().flatten().copied().collect();
                at(9, (0..vertices).find(|&vertex| !used.contains(&(vertex as u16))))
            })
            .or_else(|| at(10, self.apart(triangles)))
    }

    // The same for triangles that are the same.
    fn same_as(&self, mut triangle: [u16; 3]) -> [u16; 3] {
        if self.has(Fault::WindingCounts) {
            let least = (0..3).min_by_key(|&corner| triangle[corner]).unwrap_or(0);
            triangle.rotate_left(least);
        } else {
            triangle.sort();
        }
        triangle
    }

    // The least triangle that is not reached from triangle 0.
    fn apart(&self, triangles: &[[u16; 3]]) -> Option<usize> {
        let edges = edges_of(triangles);
        let mut reached = vec![false; triangles.len()];
        let mut open = vec![0];
        while let Some(triangle) = open.pop() {
            if !std::mem::replace(&mut reached[triangle], true) {
                let [a, b, c] = triangles[triangle];
                let on_edges = [(a, b), (b, c), (c, a)].map(|(v, w)| &edges[&edge(v, w)]);
                let steps = on_edges.into_iter().filter(|on| on.len() == 2 || !self.has(Fault::JudgesOverRegularEdges));
                open.extend(steps.flatten());
            }
        }
        let apart = reached.iter().position(|&reached| !reached);
        apart.map(|place| place + self.has(Fault::PlaceOffByOne) as usize)
    }

    // In the role asked, or in the first of all. The maps of one that is no reading go to `early`.
    fn undone(&self, mesh: &Mesh, asked: u64, mut early: impl FnMut(&Undone)) -> Result<Undone, Refusal> {
        let mut roles: Vec<u64> = if asked < 4 { vec![asked] } else { (0..4).collect() };
        if asked == 4 && self.has(Fault::RoleZeroOnly) {
            roles.truncate(1);
        }
        if self.has(Fault::GreatestRole) {
            roles.reverse();
        }
        let mut place = None;
        let made = roles.into_iter().filter_map(|role| self.in_role(mesh, role));
        for undone in made.inspect(|undone| early(undone)).filter(|undone| undone.is_reading) {
            if undone.inside_out.is_none() {
                return Ok(undone);
            }
            let is_first = place.is_none() || self.has(Fault::PlaceInTheGreatestRole);
            place = if is_first { undone.inside_out } else { place };
            if self.has(Fault::OldRuleHidesAGreaterRole) {
                break;
            }
        }
        if self.has(Fault::FifteenByAnyRole) {
            place = place.or_else(|| (0..4).find_map(|role| self.in_role(mesh, role)?.inside_out));
        }
        Err(place.filter(|_| !self.has(Fault::ElevenForFifteen)).map_or((11, 0), |place| (15, place)))
    }

    fn in_role(&self, mesh: &Mesh, role: u64) -> Option<Undone> {
        let triangles = triangles_of(&mesh.list);
        let tiles = self.tiles(&triangles, role)?;
        if 4 * tiles.len() != triangles.len() {
            return None;
        }

        let kept: BTreeSet<u16> = tiles.values().flatten().map(|&(_, kept)| kept).collect();
        let numbers: HashMap<u16, u16> = kept.iter().copied().zip(0..).collect();
        let corners = tiles.values().flatten().map(|(_, kept)| numbers[kept]);
        let coarse = Mesh { vertices: kept.len() as u64, list: corners.collect() };
        let fine = splitting(&coarse);

        let mut vertex_map = vec![u16::MAX; mesh.vertices as usize];
        let mut triangle_map = vec![u16::MAX; triangles.len()];
        for (&vertex, &number) in &numbers {
            vertex_map[vertex as usize] = number;
        }
        for (number, (&centre, tile)) in tiles.iter().enumerate() {
            let between = self.turned(triangles[centre]).into_iter().zip(fine.triangle(4 * number));
            between.for_each(|(vertex, number)| vertex_map[vertex as usize] = number);
            let fours = [centre, tile[0].0, tile[1].0, tile[2].0].into_iter().zip(4 * number as u16..);
            fours.for_each(|(triangle, number)| triangle_map[triangle] = number);
        }
        let mut undone = Undone { coarse, vertex_map, triangle_map, role, is_reading: false, inside_out: None };
        undone.is_reading = self.is_reading(&undone, &fine, &triangles, &kept);
        undone.inside_out = self.inside_out(&undone, &fine, &triangles);
        Some(undone)
    }

    // The least triangle that does not go round as the splitting has it.
    fn inside_out(&self, undone: &Undone, fine: &Mesh, triangles: &[[u16; 3]]) -> Option<u64> {
        let Undone { vertex_map, triangle_map, is_reading: true, .. } = undone else { return None };
        let is_turned = |&triangle: &usize| {
            let number = triangle_map[triangle] as usize;
            let (matched, expected) = (triangles[triangle].map(|corner| vertex_map[corner as usize]), fine.triangle(number));
            let rotations = if self.has(Fault::FirstCornersMustAgree) { 1 } else { 3 };
            // Other vertices are the concern of those faults that let them pass.
            sorted(matched) == sorted(expected)
                && !(0..rotations).any(|places| rotated(matched, places) == expected)
                && !(self.has(Fault::LastCornerNotCompared) && number % 4 == 3)
        };
        let mut turned: Vec<usize> = (0..triangles.len()).filter(is_turned).collect();
        match self.0 {
            Fault::CornersAsASet => turned.clear(),
            Fault::NeighboursMustAgree if turned.is_empty() => turned = against_neighbours(triangles),
            _ => (),
        }
        self.place_of(&turned, triangle_map)
    }

    // The least of the turned triangles, which are in order.
    fn place_of(&self, turned: &[usize], triangle_map: &[u16]) -> Option<u64> {
        let least = *turned.first()?;
        let tile = triangle_map[least] / 4;
        let place = match self.0 {
            Fault::PlaceOfTheGreatestTurned => turned[turned.len() - 1],
            Fault::PlaceInTheSplitting => turned.iter().map(|&triangle| triangle_map[triangle] as usize).min()?,
            Fault::PlaceOfATurnedCentre if turned.iter().filter(|&&other| triangle_map[other] / 4 == tile).count() == 3 => {
                triangle_map.iter().position(|&number| number == 4 * tile)?
            }
            _ => least,
        };
        Some(place as u64)
    }

    // How many edges a mesh has, and how many of them one triangle has.
    fn edge_counts(&self, mesh: &Mesh) -> (u64, u64) {
        let edges = edges_of(&triangles_of(&mesh.list));
        let is_boundary = |on: &&Vec<usize>| on.len() == 1 || (on.len() > 2 && self.has(Fault::SingularEdgesAreBoundary));
        let boundary_edges = edges.values().filter(is_boundary).count();
        let all = if self.has(Fault::EdgesOfEachTriangle) { mesh.list.len() } else { edges.len() };
        (all as u64, boundary_edges as u64)
    }

    // From the first centre, over tile edges: each centre's three corner triangles with their kept vertices, in the order in which
    // the coarse triangle has them.
    fn tiles(&self, triangles: &[[u16; 3]], role: u64) -> Option<BTreeMap<usize, [(usize, u16); 3]>> {
        let edges = edges_of(triangles);
        // The other triangle on a regular edge, and its third corner.
        let across = |triangle: usize, v: u16, w: u16| {
            let on = &edges[&edge(v, w)];
            let other = on.iter().copied().find(|&other| other != triangle)?;
            (on.len() == 2).then_some((other, third(triangles[other], v, w)))
        };
        let first = match role {
            0 => 0,
            _ => {
                let mut corners = triangles[0];
                corners.rotate_left(role as usize);
                across(0, corners[0], corners[1])?.0
            }
        };
        let mut tiles = BTreeMap::new();
        let mut open = vec![first];
        while let Some(centre) = open.pop() {
            if tiles.contains_key(&centre) {
                continue;
            }
            let [a, b, c] = triangles[centre];
            let tile = [across(centre, c, a)?, across(centre, a, b)?, across(centre, b, c)?];
            if tile[0].1 == tile[1].1 || tile[1].1 == tile[2].1 || tile[2].1 == tile[0].1 {
                return None;
            }
            tiles.insert(centre, self.turned(tile));
            for ((corner, kept), between) in [(0, c), (0, a), (1, a), (1, b), (2, b), (2, c)].map(|(side, v)| (tile[side], v)) {
                let on = &edges[&edge(kept, between)];
                if on.len() > 2 && self.has(Fault::RegularEdgesOnly) {
                    continue;
                }
                for &next in on.iter().filter(|&&next| next != corner) {
                    open.push(across(next, between, third(triangles[next], kept, between))?.0);
                }
            }
        }
        Some(tiles)
    }

    // A centre's corners, or what stands across from its edges, in the coarse triangle's order.
    fn turned<T>(&self, mut of_centre: [T; 3]) -> [T; 3] {
        of_centre.rotate_left(self.has(Fault::CornersRotated) as usize);
        of_centre
    }

    // The last check: the maps take each number once, and each triangle is that of the splitting.
    fn is_reading(&self, undone: &Undone, fine: &Mesh, triangles: &[[u16; 3]], kept: &BTreeSet<u16>) -> bool {
        let Undone { coarse, vertex_map, triangle_map, .. } = undone;
        if self.has(Fault::CountingOnly) {
            return fine.vertices == vertex_map.len() as u64 && once_each(triangle_map);
        }
        if self.has(Fault::LabelsWithoutLastCheck) {
            let labelled = |triangle: &[u16; 3]| triangle.iter().filter(|&corner| kept.contains(corner)).count() <= 1;
            return triangles.iter().all(labelled) && once_each(triangle_map);
        }
        let same = |(triangle, &number): (&[u16; 3], &u16)| {
            let matched = triangle.map(|corner| vertex_map[corner as usize]);
            sorted(matched) == sorted(fine.triangle(number as usize))
        };
        fine.vertices == vertex_map.len() as u64
            && once_each(vertex_map)
            && once_each(triangle_map)
            && triangles.iter().zip(triangle_map).all(same)
            && self.improper(coarse.vertices as usize, &triangles_of(&coarse.list)).is_none()
    }

    fn write<T: Copy + Default>(&self, out: &mut [T], entries: &[T]) {
        out[..entries.len()].copy_from_slice(entries);
        if self.has(Fault::EntryTooMany) && out.len() > entries.len() {
            out[entries.len()] = T::default();
        }
    }

    // What happens to every call's list and work buffers, whatever it answers.
    fn touch<const N: usize>(&self, list: &[u16], work: Work<N>) {
        if self.has(Fault::ReadsPastTheList) {
            // SAFETY: none. It is the fault, and must end the process.
            unsafe { list.as_ptr_range().end.read_volatile() };
        }
        for buffer in work {
            buffer.fill(0);
            if self.has(Fault::WorkLeftDirty) && N == SEVERAL_WORK {
                buffer.iter_mut().last().into_iter().for_each(|entry| *entry = 1);
            }
        }
    }

    // What frames are taken for, if it is not what they are.
    fn misread(&self, bytes: &[u8]) -> Option<Vec<u8>> {
        let each = |change: fn(u8) -> u8| Some(bytes.iter().map(|&byte| change(byte)).collect());
        match self.0 {
            Fault::NeighbourReadAsADigit => each(|byte| if byte == b'g' { b'0' } else { byte }),
            Fault::LowerCaseRefused => each(|byte| if byte.is_ascii_lowercase() { b'g' } else { byte }),
            // But for the first line's kind.
            Fault::LowerCaseReadAsAnother => {
                let mut text = bytes.to_vec();
                text.iter_mut().skip(2).filter(|byte| (b'a'..=b'f').contains(byte)).for_each(|byte| *byte -= b'a' - b'0');
                Some(text)
            }
            Fault::LowerCaseKindRefused => bytes.strip_prefix(b"4d").map(|rest| [b"4g", rest].concat()),
            Fault::CasesMustAgree => {
                let first = bytes.iter().find(|byte| byte.is_ascii_alphabetic())?;
                let agrees = |byte: u8| !byte.is_ascii_alphabetic() || byte.is_ascii_lowercase() == first.is_ascii_lowercase();
                Some(bytes.iter().map(|&byte| if agrees(byte) { byte } else { b'g' }).collect())
            }
            Fault::LastLineWithoutEnd => bytes.last().filter(|&&last| last != b'\n').map(|_| [bytes, b"\n"].concat()),
            Fault::ReturnRefused => Some(replaced(bytes, b"\r\n", b" \n")),
            Fault::ReturnEndsALine => Some(replaced(&replaced(bytes, b"\r\n", b"\n"), b"\r", b"\n")),
            Fault::TwoReturnsEndALine => Some(replaced(bytes, b"\r\r\n", b"\n")),
            Fault::ReturnAfterTheLastIgnored => bytes.ends_with(b"\n\r").then(|| bytes[..bytes.len() - 1].to_vec()),
            Fault::LineEndsMustAgree => {
                let mut lines = lines_of(bytes);
                let first = lines.next()?;
                let agrees = |line: &[u8]| line.ends_with(b"\r\n") == first.ends_with(b"\r\n");
                let others = lines.flat_map(|line| if agrees(line) { line.to_vec() } else { [b" ", line].concat() });
                Some(first.iter().copied().chain(others).collect())
            }
            _ => None,
        }
    }

    fn work_room<const N: usize>(&self, vertices: u64, list: &[u16], work: &Work<N>) -> Vec<(usize, u64)> {
        let needed = vertices.saturating_add(list.len() as u64 / 3 * 3);
        let judged = if self.has(Fault::OneWorkBufferNotJudged) { N - 1 } else { N };
        work[..judged].iter().map(|buffer| (buffer.len(), needed)).collect()
    }
}

impl Calls for Wrong {
    fn split(&self, vertices: u64, list: &[u16], out: &mut [u16], work: Work<SPLIT_WORK>) -> Answer {
        let mut lent = self.work_room(vertices, list, &work);
        lent.push((out.len(), 12 * (list.len() as u64 / 3)));
        let refusal = self.refusal(vertices, list, 4_096, &lent);
        self.touch(list, work);
        if let Some((refusal, place)) = refusal {
            return Answer { refusal, place, ..Answer::default() };
        }
        let coarse = Mesh::new(vertices, list);
        let fine = splitting(&coarse);
        self.write(out, &fine.list);
        let (edges, mut boundary_edges) = self.edge_counts(&fine);
        if self.has(Fault::SplitBoundaryNotDoubled) {
            boundary_edges = self.edge_counts(&coarse).1;
        }
        let (vertices, triangles) = (fine.vertices, fine.triangles() as u64);
        Answer { refusal: 0, place: 0, vertices, triangles, edges, boundary_edges }
    }

    fn undo_one(&self, vertices: u64, list: &[u16], asked: u64, out: OneOutputs, work: Work<ONE_WORK>) -> OneAnswer {
        let triangles = list.len() as u64 / 3;
        let mut lent = self.work_room(vertices, list, &work);
        lent.extend([(out.mesh.len(), 3 * (triangles / 4)), (out.vertex_map.len(), vertices), (out.triangle_map.len(), triangles)]);
        let asked = self.asked(asked);
        let mesh = Mesh::new(vertices, list);
        let refusal = if asked > 4 { Some((1, 0)) } else { self.refusal(vertices, list, 16_384, &lent) };
        self.touch(list, work);
        if let Some((refusal, place)) = refusal {
            return OneAnswer { refusal, place, ..OneAnswer::default() };
        }
        let early = |undone: &Undone| {
            if self.has(Fault::MapsTooEarly) {
                self.write(out.vertex_map, &undone.vertex_map);
            }
        };
        let Undone { coarse, vertex_map, triangle_map, role, .. } = match self.undone(&mesh, asked, early) {
            Ok(undone) => undone,
            Err((refusal, place)) => {
                let (edges, boundary_edges) = if self.has(Fault::EdgesInARefusal) { self.edge_counts(&mesh) } else { (0, 0) };
                return OneAnswer { refusal, place, edges, boundary_edges, ..OneAnswer::default() };
            }
        };
        self.write(out.mesh, &coarse.list);
        self.write(out.vertex_map, &vertex_map);
        self.write(out.triangle_map, &triangle_map);
        let (edges, boundary_edges) = self.edge_counts(if self.has(Fault::EdgesOfTheInput) { &mesh } else { &coarse });
        let (vertices, triangles) = (coarse.vertices, coarse.triangles() as u64);
        OneAnswer { refusal: 0, place: 0, vertices, triangles, edges, boundary_edges, role }
    }

    fn undo_several(&self, vertices: u64, list: &[u16], asked: u64, out: &mut [u16], work: Work<SEVERAL_WORK>) -> SeveralAnswer {
        let mut lent = self.work_room(vertices, list, &work);
        lent.push((out.len(), list.len() as u64 / 3 * 3));
        let asked = self.asked(asked);
        let input = Mesh::new(vertices, list);
        let refusal = if asked > 7 { Some((1, 0)) } else { self.refusal(vertices, list, 16_384, &lent) };
        self.touch(list, work);
        if let Some((refusal, place)) = refusal {
            return SeveralAnswer { refusal, place, ..SeveralAnswer::default() };
        }
        let most = if self.has(Fault::StopsOneLevelEarly) { asked.min(6) } else { asked };
        let mut answer = SeveralAnswer::default();
        let mut mesh = input.clone();
        while answer.levels < most {
            let rule = if self.has(Fault::SeveralByTheOldRule) { &Wrong(Fault::CornersAsASet) } else { self };
            match rule.undone(&mesh, 4, |_| ()) {
                Ok(undone) => {
                    answer.roles[answer.levels as usize] = undone.role as u8;
                    answer.levels += 1;
                    mesh = undone.coarse;
                }
                Err((refusal @ 15, place)) if self.has(Fault::SeveralRefusesFifteen) => {
                    return SeveralAnswer { refusal, place, ..SeveralAnswer::default() }
                }
                Err(_) => break,
            }
        }
        if self.has(Fault::RolesBehindTheLast) && answer.levels > 0 && answer.levels < 7 {
            answer.roles[answer.levels as usize] = 4;
        }
        self.write(out, &mesh.list);
        (answer.edges, answer.boundary_edges) = self.edge_counts(if self.has(Fault::EdgesOfTheInput) { &input } else { &mesh });
        if self.has(Fault::BoundaryHalvedOnce) && answer.levels > 0 {
            answer.boundary_edges = self.edge_counts(&input).1 / 2;
        }
        SeveralAnswer { vertices: mesh.vertices, triangles: mesh.triangles() as u64, ..answer }
    }

    // The library's own, but for their faults.
    fn read_frames(&self, bytes: &[u8], out: &mut [u16]) -> FramesAnswer {
        let mut answer = Library.read_frames(self.misread(bytes).as_deref().unwrap_or(bytes), out);
        if self.has(Fault::WrongEndAtTheNextLine) && answer.refusal == 12 && is_end_wrong(bytes, answer.place as usize) {
            answer.place += 1;
        }
        answer
    }

    fn write_frames(&self, vertices: u64, list: &[u16], out: &mut [u8]) -> FramesAnswer {
        let answer = Library.write_frames(vertices, list, out);
        if self.has(Fault::LowerCaseWritten) && answer.refusal == 0 {
            out[..11 + 15 * answer.triangles as usize].make_ascii_lowercase();
        }
        answer
    }

    fn read_index(&self, vertices: u64, text: &[u8], out: &mut [u16]) -> FramesAnswer {
        match self.0 {
            Fault::NumbersWrap => Library.read_index(vertices, &wrapped(text), out),
            Fault::CommentsEndAtLineFeedOnly => Library.read_index(vertices, &without_returns_in_comments(text), out),
            Fault::MissingBeforeTrailingBlanks => Library.read_index(vertices, text.trim_ascii_end(), out),
            Fault::SizeBeforeText if vertices > 32_767 => FramesAnswer { refusal: 4, ..FramesAnswer::default() },
            _ => Library.read_index(vertices, text, out),
        }
    }

    fn write_index(&self, vertices: u64, list: &[u16], out: &mut [u8]) -> TextAnswer {
        let longest = 7 * list.len();
        if self.has(Fault::RoomForTheLongest) && out.len() < longest {
            return Library.write_index(vertices, list, &mut []);
        }
        let answer = Library.write_index(vertices, list, out);
        if self.has(Fault::BlankAfterTheLast) && answer.bytes > 0 {
            out[answer.bytes as usize..].iter_mut().take(1).for_each(|byte| *byte = b' ');
        }
        answer
    }
}

fn lines_of(frames: &[u8]) -> impl Iterator<Item = &[u8]> {
    frames.split_inclusive(|&byte| byte == b'\n')
}

// Whether the line that is at fault has all of its digits.
fn is_end_wrong(frames: &[u8], line: usize) -> bool {
    let digits = lines_of(frames).nth(line).and_then(|frame| frame.get(..if line == 0 { 10 } else { 14 }));
    digits.is_some_and(|digits| digits.iter().all(u8::is_ascii_hexdigit))
}

fn replaced(text: &[u8], old: &[u8], new: &[u8]) -> Vec<u8> {
    let (mut rest, mut replaced) = (text, Vec::new());
    while let [first, others @ ..] = rest {
        let after = rest.strip_prefix(old);
        replaced.extend(if after.is_some() { new } else { std::slice::from_ref(first) });
        rest = after.unwrap_or(others);
    }
    replaced
}

// Each number, if 64 bits have it, as 16 bits have it, spelt in as many digits as before.
fn wrapped(text: &[u8]) -> Vec<u8> {
    let mut wrapped = text.to_vec();
    for run in wrapped.split_mut(|byte| !byte.is_ascii_digit()) {
        let value = std::str::from_utf8(run).ok().and_then(|digits| digits.parse::<u64>().ok());
        if let Some(value) = value {
            let width = run.len();
            run.copy_from_slice(format!("{:0>width$}", value as u16).as_bytes());
        }
    }
    wrapped
}

fn without_returns_in_comments(text: &[u8]) -> Vec<u8> {
    let mut lines = text.to_vec();
    for line in lines.split_mut(|&byte| byte == b'\n') {
        let comment = line.iter().position(|&byte| byte == b'#').unwrap_or(line.len());
        line[comment..].iter_mut().filter(|byte| **byte == b'\r').for_each(|byte| *byte = b' ');
    }
    lines
}

fn triangles_of(list: &[u16]) -> Vec<[u16; 3]> {
    list.chunks_exact(3).map(|corners| [corners[0], corners[1], corners[2]]).collect()
}

fn edge(v: u16, w: u16) -> (u16, u16) {
    (v.min(w), v.max(w))
}

fn edges_of(triangles: &[[u16; 3]]) -> Edges {
    let mut edges = Edges::new();
    for (number, &[a, b, c]) in triangles.iter().enumerate() {
        [edge(a, b), edge(b, c), edge(c, a)].into_iter().for_each(|edge| edges.entry(edge).or_default().push(number));
    }
    edges
}

// The corner that is neither of two.
fn third(triangle: [u16; 3], v: u16, w: u16) -> u16 {
    triangle.into_iter().find(|&corner| corner != v && corner != w).unwrap_or(v)
}

fn sorted(mut corners: [u16; 3]) -> [u16; 3] {
    corners.sort();
    corners
}

fn rotated(mut corners: [u16; 3], places: usize) -> [u16; 3] {
    corners.rotate_left(places);
    corners
}

// The triangles that run over a regular edge in the direction in which the other triangle on it does.
fn against_neighbours(triangles: &[[u16; 3]]) -> Vec<usize> {
    let runs = |triangle: usize, v: u16, w: u16| (0..3).any(|places| rotated(triangles[triangle], places)[..2] == [v, w]);
    let mut against = BTreeSet::new();
    for ((v, w), on) in edges_of(triangles) {
        if let [one, other] = on[..] {
            if runs(one, v, w) == runs(other, v, w) {
                against.extend([one, other]);
            }
        }
    }
    against.into_iter().collect()
}

// Whether a map takes each number below its length once.
fn once_each(map: &[u16]) -> bool {
    let numbers: BTreeSet<u16> = map.iter().copied().collect();
    numbers.len() == map.len() && numbers.last().is_none_or(|&last| (last as usize) < map.len())
}
