// What the cases covered, counted, so that a generator that has quietly become empty is seen.
use std::collections::BTreeMap;
use std::fmt::{self, Display, Formatter};

#[derive(Clone, Copy, Debug, PartialEq, Eq)]
pub enum Call {
    Split,
    UndoOne,
    UndoSeveral,
    ReadFrames,
    WriteFrames,
    ReadIndex,
    WriteIndex,
    Program,
}

const CALLS: [Call; 8] = [
    Call::Split,
    Call::UndoOne,
    Call::UndoSeveral,
    Call::ReadFrames,
    Call::WriteFrames,
    Call::ReadIndex,
    Call::WriteIndex,
    Call::Program,
];

// Those that count edges, which come first.
const COUNTING: [Call; 3] = [Call::Split, Call::UndoOne, Call::UndoSeveral];

// What a resulting mesh may have. Some ways to miscount show in one of these alone.
const SORTS: [&str; 4] = ["no boundary edge", "boundary edges", "singular edges", "singular edges and no boundary edge"];

// What a text of frames that is read may be or have.
const SPELLINGS: [&str; 6] = ["the normal spelling", "another", "lower case", "CR LF", "both cases", "both line ends"];

// The refusals' numbers, and 0 for acceptance.
const NUMBERS: usize = 16;

// The refusals that name a place.
const PLACED: [usize; 8] = [6, 7, 8, 9, 10, 12, 14, 15];

impl Call {
    pub fn name(self) -> &'static str {
        match self {
            Call::Split => "split",
            Call::UndoOne => "undo one",
            Call::UndoSeveral => "undo several",
            Call::ReadFrames => "read frames",
            Call::WriteFrames => "write frames",
            Call::ReadIndex => "read index",
            Call::WriteIndex => "write index",
            Call::Program => "the program",
        }
    }

    // The numbers that the documents have the call give.
    fn numbers(self) -> &'static [usize] {
        match self {
            Call::Split => &[0, 2, 3, 4, 5, 6, 7, 8, 9, 10],
            Call::UndoOne => &[0, 1, 2, 3, 4, 5, 6, 7, 8, 9, 10, 11, 15],
            Call::UndoSeveral => &[0, 1, 2, 3, 4, 5, 6, 7, 8, 9, 10],
            Call::ReadFrames => &[0, 4, 5, 12],
            Call::WriteFrames | Call::WriteIndex => &[0, 2, 4, 5],
            Call::ReadIndex => &[0, 4, 5, 14],
            Call::Program => &[0, 3, 4, 5, 6, 7, 8, 9, 10, 11, 12, 13, 15],
        }
    }
}

#[derive(Default)]
pub struct Cover {
    answers: [[u64; NUMBERS]; CALLS.len()],
    // Of these, the refusals whose place is not 0.
    later_places: [[u64; NUMBERS]; CALLS.len()],
    // Results of the calls that count edges, by what they have.
    edges: [[u64; SORTS.len()]; COUNTING.len()],
    // Readings that undo one gave, by their role.
    roles_asked: [u64; 4],
    least_roles: [u64; 4],
    // What undo several reached, and the roles that it took.
    levels: [u64; 8],
    roles_of_levels: [u64; 4],
    // Refusals 15 of undo one, by what was asked.
    inside_out: [u64; 5],
    // Readings in the least role where a lesser one has a reading by the old rule alone.
    passed_over: u64,
    // Where undo several stopped though the old rule has a reading: before the first level, and after it.
    stopped: [u64; 2],
    // Texts of frames that were read and written again, by their spelling.
    spellings: [u64; SPELLINGS.len()],
    // Texts of frames that are right, and were cut at every place: with LF alone, and with CR LF.
    cut: [u64; 2],
    // Undos for which the reference's two searches were compared with each other.
    both_searches: u64,
    // By set and kind.
    cases: BTreeMap<(&'static str, &'static str), u64>,
}

impl Cover {
    pub fn case(&mut self, set: &'static str, kind: &'static str) {
        *self.cases.entry((set, kind)).or_default() += 1;
    }

    pub fn answer(&mut self, call: Call, refusal: u64, place: u64) {
        self.answers[call as usize][refusal as usize] += 1;
        self.later_places[call as usize][refusal as usize] += (place > 0) as u64;
    }

    // What one of the calls that count edges is to count of its result. Without singular edges the sides of the triangles are two for
    // each edge, less one for each boundary edge; with them they are more.
    pub fn edges(&mut self, call: Call, triangles: u64, edges: u64, boundary_edges: u64) {
        let (is_closed, is_singular) = (boundary_edges == 0, 3 * triangles + boundary_edges > 2 * edges);
        let sorts = [is_closed, !is_closed, is_singular, is_singular && is_closed];
        add_each(&mut self.edges[call as usize], &sorts.map(u64::from));
    }

    pub fn reading(&mut self, asked: u64, role: u64) {
        let roles = if asked == role { &mut self.roles_asked } else { &mut self.least_roles };
        roles[role as usize] += 1;
    }

    pub fn levels(&mut self, levels: u64, roles: &[u8; 7]) {
        self.levels[levels as usize] += 1;
        for &role in &roles[..levels as usize] {
            self.roles_of_levels[role as usize] += 1;
        }
    }

    pub fn inside_out(&mut self, asked: u64) {
        self.inside_out[asked as usize] += 1;
    }

    pub fn passed_over(&mut self) {
        self.passed_over += 1;
    }

    pub fn stopped_inside_out(&mut self, levels: u64) {
        self.stopped[usize::from(levels > 0)] += 1;
    }

    pub fn spelling(&mut self, text: &[u8], normal: &[u8]) {
        let count = |is_counted: fn(&u8) -> bool| text.iter().filter(|byte| is_counted(byte)).count();
        let (upper, lower) = (count(u8::is_ascii_uppercase), count(u8::is_ascii_lowercase));
        let (returns, lines) = (count(|&byte| byte == b'\r'), count(|&byte| byte == b'\n'));
        let is_normal = text == normal;
        let sorts = [is_normal, !is_normal, lower > 0, returns > 0, upper.min(lower) > 0, returns.min(lines - returns) > 0];
        add_each(&mut self.spellings, &sorts.map(u64::from));
    }

    pub fn cut(&mut self, text: &[u8]) {
        self.cut[usize::from(text.contains(&b'\r'))] += 1;
    }

    pub fn both_searches(&mut self) {
        self.both_searches += 1;
    }

    pub fn add(&mut self, other: Cover) {
        for (call, _) in CALLS.iter().enumerate() {
            add_each(&mut self.answers[call], &other.answers[call]);
            add_each(&mut self.later_places[call], &other.later_places[call]);
        }
        for (counts, others) in self.edges.iter_mut().zip(&other.edges) {
            add_each(counts, others);
        }
        add_each(&mut self.roles_asked, &other.roles_asked);
        add_each(&mut self.least_roles, &other.least_roles);
        add_each(&mut self.levels, &other.levels);
        add_each(&mut self.roles_of_levels, &other.roles_of_levels);
        add_each(&mut self.inside_out, &other.inside_out);
        add_each(&mut self.stopped, &other.stopped);
        add_each(&mut self.spellings, &other.spellings);
        add_each(&mut self.cut, &other.cut);
        self.passed_over += other.passed_over;
        self.both_searches += other.both_searches;
        for (kind, count) in other.cases {
            *self.cases.entry(kind).or_default() += count;
        }
    }

    // What was expected of these kinds of cases, and never occurred.
    pub fn missing(&self, kinds: &[(&'static str, &'static str)], with_program: bool) -> Vec<String> {
        let mut missing = Vec::new();
        let mut expect = |count: u64, what: String| {
            if count == 0 {
                missing.push(what);
            }
        };
        for call in CALLS.into_iter().filter(|&call| with_program || call != Call::Program) {
            for &number in call.numbers() {
                expect(self.answers[call as usize][number], format!("{}: {number}", call.name()));
                if PLACED.contains(&number) {
                    expect(self.later_places[call as usize][number], format!("{}: {number} at a place after 0", call.name()));
                }
            }
        }
        for call in COUNTING {
            for (sort, count) in SORTS.iter().zip(self.edges[call as usize]) {
                expect(count, format!("{}: a result with {sort}", call.name()));
            }
        }
        for role in 0..4 {
            expect(self.roles_asked[role], format!("a reading in role {role}, asked for it"));
            expect(self.least_roles[role], format!("a reading in role {role}, asked for the least"));
            expect(self.roles_of_levels[role], format!("a level in role {role}"));
        }
        for levels in 0..8 {
            expect(self.levels[levels], format!("{levels} levels"));
        }
        for (asked, &count) in self.inside_out.iter().enumerate() {
            expect(count, format!("15, asked {asked}"));
        }
        expect(self.passed_over, "a reading in the least role, where a lesser one has one by the old rule".into());
        for (levels, count) in ["no level", "a level"].iter().zip(self.stopped) {
            expect(count, format!("{levels} undone, and then 15"));
        }
        for (spelling, count) in SPELLINGS.iter().zip(self.spellings) {
            expect(count, format!("a text of frames that is read: {spelling}"));
        }
        for (end, count) in ["LF", "CR LF"].iter().zip(self.cut) {
            expect(count, format!("a text of frames with {end}, cut at every place"));
        }
        expect(self.both_searches, "an undo by both searches".into());
        for kind in kinds {
            expect(self.cases.get(kind).copied().unwrap_or(0), format!("{}: {}", kind.0, kind.1));
        }
        missing
    }
}

fn add_each(counts: &mut [u64], others: &[u64]) {
    for (count, other) in counts.iter_mut().zip(others) {
        *count += other;
    }
}

impl Display for Cover {
    fn fmt(&self, f: &mut Formatter) -> fmt::Result {
        writeln!(f, "cases:")?;
        for ((set, kind), count) in &self.cases {
            writeln!(f, "  {count:>9}  {set}: {kind}")?;
        }
        writeln!(f, "answers:")?;
        for call in CALLS {
            let counts = &self.answers[call as usize];
            let refused: Vec<String> =
                (1..NUMBERS).filter(|&number| counts[number] > 0).map(|number| format!("{number}: {}", counts[number])).collect();
            writeln!(f, "  {:<13} {:>9} accepted; refused {}", call.name(), counts[0], refused.join(", "))?;
        }
        for call in COUNTING {
            writeln!(f, "results of {} with {}: {:?}", call.name(), SORTS.join(", "), self.edges[call as usize])?;
        }
        writeln!(f, "readings in roles 0 to 3: asked for {:?}, the least {:?}", self.roles_asked, self.least_roles)?;
        writeln!(f, "undone 0 to 7 levels: {:?}, in roles 0 to 3: {:?}", self.levels, self.roles_of_levels)?;
        writeln!(f, "refused 15, asked 0 to 4: {:?}; lesser roles passed over: {}", self.inside_out, self.passed_over)?;
        writeln!(f, "stopped several at 15, at once and after a level: {:?}", self.stopped)?;
        writeln!(f, "texts of frames read with {}: {:?}", SPELLINGS.join(", "), self.spellings)?;
        writeln!(f, "texts of frames cut at every place, with LF alone and with CR LF: {:?}", self.cut)?;
        write!(f, "undos by both of the reference's searches: {}", self.both_searches)
    }
}
