//! Cases of one vertex with a long deadline each, for any call that judges one.

use super::vertices::{Vertices, MOST_CELLS};
use super::{masked_task, random_task, self_edge, slow, task, text, Random};

impl Vertices {
    /// The longest path and the longest witness; lengths around those that one byte holds; the whole work area by few long rows, and one
    /// cell more; R7 with numbers 200 times as large; separations beyond every deadline; and loads and masked time as large as they can be.
    pub fn slow(&mut self) {
        let mut tasks = vec![self_edge(1, 1, 1); 7];
        tasks.push(task(&[(1, 1_000)], &[]));
        self.at_need(&text(&tasks), (7, 0));
        self.at_need(&text(&tasks[6..]), (1, 0));
        for d in [255, 256, 257, 999] {
            let tasks = [self_edge(1, 1, 1), self_edge(1, d, d), task(&[(1, d)], &[])];
            self.at_count(&text(&tasks), (2, 0));
        }
        let equal = |n: usize| task(&vec![(1, 1_000); n], &[]);
        // 512 x (7 + 9) is 8,192, and 1,000 x 9 is more.
        for (tasks, d) in [(vec![equal(4), equal(5)], 512), (vec![equal(5)], 1_000)] {
            let number = tasks.len() as u8;
            let judged = task(&[(1, d)], &[]);
            let text = text(&[tasks, vec![judged]].concat());
            self.push(&text, (number, 0), 1, MOST_CELLS);
            self.push(&text, (number, 0), 1, (MOST_CELLS.0 - 1, 1_500));
        }
        let r7 = task(&[(600, 1_000), (200, 400), (800, 1_000)], &[(1, 2, 400)]);
        self.around(&text(&[r7, task(&[(200, 1_000)], &[])]), (1, 0));
        // A second release at tick 999 counts by tick 1,000, and one at 1,000 doesn't.
        let far = [(700, 60_000), (701, 60_000)];
        for (e, p) in [(699, 999), (700, 999), (700, 1_000)]
            .into_iter()
            .chain(far)
        {
            let above = task(&[(300, 999), (300, 1_000)], &[(0, 0, p), (0, 1, 60_000)]);
            self.at_count(&text(&[above, task(&[(e, 1_000)], &[])]), (1, 0));
        }
        let heaviest = task(&[(999, 999), (1_000, 1_000)], &[(0, 1, 999)]);
        let masking = masked_task(1_000, &[(1_000, 1_000)], &[]);
        let tasks = [
            heaviest.clone(),
            heaviest,
            task(&[(1_000, 1_000)], &[]),
            masking,
        ];
        self.at_need(&text(&tasks), (2, 0));
    }

    /// A vertex with the budget and the areas that it needs, and with one less of each.
    fn at_need(&mut self, text: &str, numbers: (u8, u8)) {
        self.at_count(text, numbers);
        let (verdict, (work, witness)) = self.needed(text, numbers, u32::MAX);
        self.push(text, numbers, verdict.value(), (work - 1, witness));
        self.push(text, numbers, verdict.value(), (work, witness - 1));
    }

    /// Vertices of random tables with a judged d above 200, each added in this way: of each verdict so many whose count is 1, small, or larger.
    pub fn random_slow(
        &mut self,
        seed: u64,
        vertices: [usize; 3],
        add: impl Fn(&mut Vertices, &str, (u8, u8)),
    ) {
        self.random_of(seed, vertices, slow_tasks, add);
    }
}

/// Two to four random tasks with long separations, one in three with close ones instead.
fn slow_tasks(random: &mut Random) -> Vec<String> {
    let mut tasks = Vec::new();
    for _ in 0..1 + random.below(3) {
        tasks.push(match random.below(3) {
            0 => slow::close_task(random),
            _ => random_task(random, &slow::SIZE),
        });
    }
    tasks.push(random_task(random, &slow::SIZE));
    tasks
}
