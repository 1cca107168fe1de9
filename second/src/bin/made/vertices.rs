//! Cases of one vertex each, for any call that judges one.
//!
//! The bench examples, masked lengths, every refusal, and random tables with budgets and areas around what they need.

use super::bench::{masked_texts, r1, r10, r10_texts, r3, r4, r5, r7, R11_TEXTS};
use super::vendors::vendor_task;
use super::{
    edge_line, masked_task, random_task, self_edge, task, text, vertex_line, Random, Size,
};
use second::case::{Case, FINISH};
use second::judge::{judge, Verdict};
use second::latest::latest;
use second::refusal::{Refusal, Row};
use second::table::{TaskNo, VertexNo};

/// The most cells of each area.
pub const MOST_CELLS: (u32, u32) = (8_192, 7_100);
/// More than R1 to R9 need.
pub const ENOUGH: (u32, u32) = (40, 20);
/// The largest count that a random vertex may have.
const LARGEST_COUNT: u32 = 3_000;
/// The largest count that is small.
const SMALL_COUNT: u32 = 20;

/// Random tasks with a few short paths.
const SIZE: Size = Size {
    vertices: 4,
    e: 6,
    d: (3, 22),
    p: 8,
};

/// Cases of one vertex each, all by the same call.
pub struct Vertices {
    /// The mode of the call.
    mode: u8,
    /// The cases so far.
    pub cases: Vec<Case>,
}

impl Vertices {
    /// No cases yet, of this mode.
    pub fn of(mode: u8) -> Vertices {
        let cases = Vec::new();
        Vertices { mode, cases }
    }

    /// A vertex to judge.
    fn case(&self, text: &str, numbers: (u8, u8), budget: u32, lent: (u32, u32)) -> Case {
        Case {
            mode: self.mode,
            task: numbers.0,
            vertex: numbers.1,
            budget,
            work: lent.0,
            witness: lent.1,
            text: text.into(),
        }
    }

    /// Adds a vertex to judge.
    pub fn push(&mut self, text: &str, numbers: (u8, u8), budget: u32, lent: (u32, u32)) {
        let case = self.case(text, numbers, budget, lent);
        self.cases.push(case);
    }

    /// R1 to R11.
    pub fn bench(&mut self) {
        for number in 0..3 {
            self.push(&r1(2), (number, 0), 100_000, ENOUGH);
        }
        self.push(&r1(1), (2, 0), 100_000, ENOUGH);
        for horizon in [5, 6] {
            self.push(&r3(horizon), (1, 0), 1, ENOUGH);
        }
        self.push(&r4(), (0, 0), 100_000, ENOUGH);
        self.push(&r4(), (0, 0), 1, (0, 0));
        for d in [5, 4] {
            self.push(&r5(d), (1, 0), 100_000, ENOUGH);
        }
        for budget in [100_000, 0, 4, 5, 6] {
            self.push(&r7(), (1, 0), budget, ENOUGH);
        }
        for work in [24, 25, 26] {
            for witness in [5, 6, 7] {
                self.push(&r7(), (1, 0), 100_000, (work, witness));
            }
        }
        for text in r10_texts() {
            for lent in [MOST_CELLS, (0, 0)] {
                self.push(&text, (1, 0), 100_000, lent);
            }
        }
        for text in R11_TEXTS {
            self.push(text, (0, 0), 100_000, ENOUGH);
        }
    }

    /// R2 with a masked length below it or above it; e + B around d and beyond it, the largest m, the largest of several, and another count and choice with
    /// another B.
    pub fn masked(&mut self) {
        for (text, judged) in masked_texts().iter().zip([2, 2, 3, 3]) {
            self.push(text, (judged, 0), 100_000, (40, 30));
        }
        let masking = |m: u32| masked_task(m, &[(m, 50)], &[]);
        let alone = text(&[task(&[(1, 5), (3, 5), (4, 5), (5, 5)], &[]), masking(2)]);
        for vertex in 0..4 {
            self.push(&alone, (0, vertex), 1, (0, 0));
        }
        for (m, vertex) in [(999, 0), (1_000, 0), (1_000, 1)] {
            let longest = masked_task(m, &[(1_000, 1_000)], &[]);
            let tasks = [task(&[(1, 1_000), (1_000, 1_000)], &[]), longest];
            self.push(&text(&tasks), (0, vertex), 1, (0, 0));
        }
        let each_masks: Vec<_> = [4, 1, 3, 2, 2, 7, 1, 1].map(masking).into();
        for number in 0..8 {
            self.push(&text(&each_masks), (number, 0), 1, MOST_CELLS);
        }
        // The last is too long with its masked time alone.
        for (e, d, m) in [(1, 5, 1), (1, 4, 1), (4, 5, 2)] {
            let above = task(&[(1, 5), (3, 5)], &[]);
            self.at_count(&text(&[above, task(&[(e, d)], &[]), masking(m)]), (1, 0));
        }
        for m in [1, 3, 4] {
            let above = task(&[(3, 10), (1, 4), (4, 10)], &[(1, 2, 4)]);
            self.at_count(&text(&[above, task(&[(1, 9)], &[]), masking(m)]), (1, 0));
        }
        // As in `large`, with p, d and what is judged one tick longer, and that tick masked.
        let mut tasks = vec![task(&[(1, 9); 2], &[]); 4];
        tasks.push(task(&[(3, 9), (1, 7), (4, 9)], &[(1, 2, 7)]));
        tasks.extend([task(&[(1, 10)], &[]), masking(1)]);
        self.at_count(&text(&tasks), (5, 0));
    }

    /// Refusal 9: the lowest-numbered task, and higher tasks only.
    pub fn many_paths(&mut self) {
        let below = task(&[(1, 31)], &[]);
        let few = self_edge(1, 5, 5);
        for tasks in [
            [few.clone(), r10(4), below.clone()],
            [r10(4), r10(4), below.clone()],
            [r10(4), few.clone(), below.clone()],
            [few, below, r10(4)],
        ] {
            for number in 0..=3 {
                self.push(&text(&tasks), (number, 0), 100_000, (200, 70));
            }
        }
    }

    /// Texts refused by each row from 1 to 7 and by row 13, whatever else is asked.
    pub fn texts(&mut self) {
        let whole = self_edge(2, 5, 5);
        for text in [
            String::new(),
            whole.clone() + "0g\n",
            whole.clone() + "00",
            whole.clone() + "\n",
            whole.clone() + &vertex_line(1, 1),
            whole.clone() + "010d00\n",
            whole.replace("0200020005", &vertex_line(1_001, 5)[..10]),
            whole.replace("0300000005", &edge_line(0, 1, 5)[..10]),
            self_edge(2, 5, 4) + "00\n",
            task(&[(1, 5); 2], &[(1, 0, 5), (0, 1, 5)]) + "00\n",
            masked_task(0, &[(1, 5)], &[]) + "00\n",
            masked_task(2, &[(1, 5)], &[]) + "00\n",
            self_edge(6, 5, 5) + "00\n",
            vendor_task("05", &[(6, 5, 5)]) + "00\n",
            whole.clone(),
            whole.clone() + "010101\n",
            whole.clone() + "00\n\n",
            whole + "00\n00\n",
        ] {
            for (numbers, budget, lent) in [((0, 0), 100_000, ENOUGH), ((9, 9), 0, (0, 0))] {
                self.push(&text, numbers, budget, lent);
            }
        }
    }

    /// Refusal 8: no such task, no such vertex.
    pub fn numbers(&mut self) {
        for numbers in [
            (3, 0),
            (8, 0),
            (255, 0),
            (2, 1),
            (0, 1),
            (1, 12),
            (2, 255),
            (255, 255),
        ] {
            for (budget, lent) in [(100_000, ENOUGH), (0, (0, 0))] {
                self.push(&r1(2), numbers, budget, lent);
            }
        }
        for vertex in 0..=3 {
            self.push(&r7(), (0, vertex), 1, ENOUGH);
        }
    }

    /// A long path, the whole work area, and a walk that sees every group.
    pub fn large(&mut self) {
        let long = text(&[self_edge(1, 1, 1), task(&[(1, 200)], &[])]);
        self.around(&long, (1, 0));
        let equal = |n: usize| task(&vec![(1, 10); n], &[]);
        let mut tasks = vec![equal(8), equal(8), equal(9), equal(9)];
        tasks.push(task(&[(1, 128)], &[]));
        self.around(&text(&tasks), (4, 0));
        for n in [1, 2, 3] {
            let mut tasks = vec![task(&vec![(1, 9); n], &[]); 4];
            tasks.push(task(&[(3, 9), (1, 6), (4, 9)], &[(1, 2, 6)]));
            tasks.push(task(&[(1, 9)], &[]));
            self.around(&text(&tasks), (5, 0));
        }
    }

    /// The verdict on areas of just the cells that refusals 10 and 11 ask for, and those areas.
    pub fn needed(&self, text: &str, numbers: (u8, u8), budget: u32) -> (Verdict, (u32, u32)) {
        let mut lent = (0, 0);
        loop {
            let verdict = verdict(&self.case(text, numbers, budget, lent));
            match verdict {
                Verdict::Refused(Refusal {
                    row: Row::WorkArea,
                    place,
                }) => lent.0 = place as u32,
                Verdict::Refused(Refusal {
                    row: Row::WitnessArea,
                    place,
                }) => lent.1 = place as u32,
                _ => return (verdict, lent),
            }
        }
    }

    /// A vertex with budgets and areas around what it needs.
    pub fn around(&mut self, text: &str, numbers: (u8, u8)) {
        let (verdict, (work, witness)) = self.needed(text, numbers, u32::MAX);
        let count = verdict.value();
        let mut budgets = vec![0, count - 1, count, count + 1, u32::MAX];
        budgets.dedup();
        for budget in budgets {
            self.push_within(self.case(text, numbers, budget, (work, witness)));
        }
        for (work, witness) in [
            (work.wrapping_sub(1), witness),
            (work, witness.wrapping_sub(1)),
            (work.wrapping_sub(1), witness.wrapping_sub(1)),
            (work + 1, witness),
            (work, witness + 1),
            (work + 1, witness + 1),
        ] {
            self.push_within(self.case(text, numbers, count, (work, witness)));
        }
    }

    /// Adds a case unless its areas are too large; one cell less than none is.
    fn push_within(&mut self, case: Case) {
        if case.work <= MOST_CELLS.0 && case.witness <= MOST_CELLS.1 {
            self.cases.push(case);
        }
    }

    /// A vertex with the least budget that suffices and one less, on areas of just the cells needed.
    pub fn at_count(&mut self, text: &str, numbers: (u8, u8)) {
        let (verdict, lent) = self.needed(text, numbers, u32::MAX);
        let count = verdict.value();
        for budget in [count - 1, count] {
            self.push(text, numbers, budget, lent);
        }
    }

    /// Vertices of random tables, most with a masked length below them, each added in this way: of each verdict so many whose count is 1, small, or larger.
    pub fn random(
        &mut self,
        seed: u64,
        vertices: [usize; 3],
        add: impl Fn(&mut Vertices, &str, (u8, u8)),
    ) {
        let tasks = |random: &mut Random| -> Vec<_> {
            let count = 2 + random.below(4);
            (0..count).map(|_| random_task(random, &SIZE)).collect()
        };
        self.random_of(seed, vertices, tasks, add);
    }

    /// The same with tasks made in this way, the judged one last.
    pub fn random_of(
        &mut self,
        seed: u64,
        vertices: [usize; 3],
        tasks: impl Fn(&mut Random) -> Vec<String>,
        add: impl Fn(&mut Vertices, &str, (u8, u8)),
    ) {
        let mut random = Random(seed);
        let mut meeting = vertices;
        let mut missing = vertices;
        while meeting.iter().chain(&missing).any(|&left| left > 0) {
            let tasks = tasks(&mut random);
            let numbers = (tasks.len() as u8 - 1, 0);
            let text = text(&[tasks, random_lower(&mut random)].concat());
            let left = match self.needed(&text, numbers, LARGEST_COUNT) {
                (_, (work, _)) if work > MOST_CELLS.0 => continue,
                (Verdict::Meets { count }, _) => &mut meeting[size(count)],
                (Verdict::Misses { count, .. }, _) => &mut missing[size(count)],
                _ => continue,
            };
            if *left > 0 {
                *left -= 1;
                add(self, &text, numbers);
            }
        }
    }
}

/// Random tasks below a judged one: none to two, most with a masked length.
fn random_lower(random: &mut Random) -> Vec<String> {
    let one = |random: &mut Random| {
        let e = 1 + random.below(SIZE.e);
        let m = random.below(1 + e) as u32;
        let vertex = [(e as u32, 9)];
        match m {
            0 => task(&vertex, &[]),
            _ => masked_task(m, &vertex, &[]),
        }
    };
    let count = [0, 1, 1, 2][random.below(4)];
    (0..count).map(|_| one(random)).collect()
}

/// What the call of its mode says of a case.
fn verdict(case: &Case) -> Verdict {
    let (task, vertex) = (TaskNo(case.task.into()), VertexNo(case.vertex.into()));
    let mut work = vec![0; case.work as usize];
    let mut witness = vec![0; case.witness as usize];
    let (text, budget) = (&case.text, case.budget);
    match case.mode {
        FINISH => latest(text, task, vertex, budget, &mut work, &mut witness).verdict(),
        _ => judge(text, task, vertex, budget, &mut work, &mut witness),
    }
}

/// The place of a count among 1, small and larger ones.
fn size(count: u32) -> usize {
    usize::from(count > 1) + usize::from(count > SMALL_COUNT)
}
