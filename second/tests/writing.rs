//! The writer's answers, worked out by hand: R1, each bound and one past it, and which refusal comes first.

use crate::common::writing::{byte_area, record, said, Said};
use crate::common::{masked, r1, self_edge, task, Task};
use second::refusal::Row;
use second::table::{Ticks, VertexNo};
use second::write::write;

/// More bytes than any text has.
const PLENTY: usize = 4_000;

/// A task of three vertices, d 5, with the largest e 5 in the second, and three edges.
fn three() -> Task {
    task(
        &[(2, 5), (5, 5), (3, 5)],
        &[(0, 1, 9), (1, 0, 9), (2, 2, 9)],
    )
}

/// Three such tasks: task frames at lines 1, 8 and 15, vertices at 2 to 4, 9 to 11 and 16 to 18, edges at 5 to 7, 12 to 14 and 19 to 21.
fn table() -> Vec<Task> {
    vec![three(); 3]
}

/// What is said of the three tasks with a change, and an area that suffices.
fn changed(change: impl FnOnce(&mut Vec<Task>)) -> Said {
    let mut tasks = table();
    change(&mut tasks);
    said(&tasks, PLENTY)
}

/// The three tasks' bytes: frames of 7 bytes for a task, 11 for a vertex or an edge, and 3 for the end.
const TABLE_BYTES: usize = 3 * (7 + 6 * 11) + 3;

#[test]
fn r1_written() {
    let text = b"010101\n0200020005\n0300000005\n\
                 010101\n0200020007\n0300000007\n\
                 010101\n0200020006\n0300000007\n00\n";
    // Nine frames, three of 7 bytes and six of 11, and the end.
    assert_eq!(text.len(), 90);
    let mut area = byte_area(93);
    assert_eq!(write(&record(&r1(2)), &mut area), Ok(90));
    assert_eq!(area[..90], text[..]);
    assert_eq!(area[90..], byte_area(93)[90..]);
    let mut exact = byte_area(90);
    assert_eq!(write(&record(&r1(2)), &mut exact), Ok(90));
    assert_eq!(exact, text);
    for short in [0, 1, 89] {
        assert_eq!(said(&r1(2), short), Err((10, 90)));
    }
}

#[test]
fn a_masked_length_written() {
    let tasks = [masked(2, self_edge(2, 5, 5)), task(&[(16, 200)], &[])];
    let text = b"0401010002\n0200020005\n0300000005\n010100\n02001000c8\n00\n";
    assert_eq!(text.len(), 54);
    let mut area = byte_area(54);
    assert_eq!(write(&record(&tasks), &mut area), Ok(54));
    assert_eq!(area, text);
    assert_eq!(said(&tasks, 53), Err((10, 54)));
    let largest = masked(1_000, task(&[(1_000, 1_000)], &[]));
    let mut area = byte_area(25);
    assert_eq!(write(&record(&[largest]), &mut area), Ok(25));
    assert_eq!(area, b"04010003e8\n0203e803e8\n00\n");
}

#[test]
fn the_longest_text() {
    let edges: Vec<_> = (0..32).map(|n| (n / 12, n % 12, 60_000)).collect();
    let plain = task(&[(1_000, 1_000); 12], &edges);
    assert_eq!(said(&vec![plain.clone(); 8], PLENTY), Ok(3_931));
    let longest = vec![masked(1_000, plain); 8];
    assert_eq!(said(&longest, 3_963), Ok(3_963));
    assert_eq!(said(&longest, 3_962), Err((10, 3_963)));
    assert_eq!(said(&longest, 0), Err((10, 3_963)));
}

#[test]
fn how_many_tasks() {
    let one = task(&[(1, 5)], &[]);
    assert_eq!(said(&[], PLENTY), Err((2, 1)));
    assert_eq!(said(&[], 0), Err((2, 1)));
    // Each task has two lines of 18 bytes together.
    for count in [1, 7, 8] {
        assert_eq!(said(&vec![one.clone(); count], PLENTY), Ok(18 * count + 3));
    }
    for count in [9, 10, 1_000, 65_535] {
        let mut tasks = vec![one.clone(); count];
        for bytes in [0, PLENTY] {
            assert_eq!(said(&tasks, bytes), Err((2, 17)));
        }
        // Whatever the ninth is, and whatever comes behind it.
        tasks[8] = Task::default();
        tasks[count - 1].m = 9_999;
        assert_eq!(said(&tasks, PLENTY), Err((2, 17)));
        // A fault before it comes first.
        tasks[7].vertices[0].0 = 0;
        assert_eq!(said(&tasks, PLENTY), Err((3, 16)));
        tasks[7].m = 1_001;
        assert_eq!(said(&tasks, 0), Err((3, 15)));
    }
}

#[test]
fn how_many_vertices() {
    for (place, line) in [(0, 1), (1, 8), (2, 15)] {
        for count in [1, 12] {
            let tasks = changed(|tasks| tasks[place] = task(&vec![(1, 5); count], &[]));
            assert_eq!(tasks, Ok(TABLE_BYTES - 6 * 11 + count * 11));
        }
        for count in [0, 13, 256, 257, 300, 65_535, 65_537] {
            let tasks = changed(|tasks| tasks[place] = task(&vec![(1, 5); count], &[]));
            assert_eq!(tasks, Err((3, line)));
        }
    }
}

#[test]
fn how_many_edges() {
    let edges = |count: usize| -> Vec<_> { (0..count).map(|n| (n / 6, n % 6, 9)).collect() };
    for (place, line) in [(0, 1), (1, 8), (2, 15)] {
        for count in [0, 1, 32] {
            let tasks = changed(|tasks| tasks[place] = task(&[(1, 5); 6], &edges(count)));
            assert_eq!(tasks, Ok(TABLE_BYTES + count * 11));
        }
        for count in [33, 36, 256, 288, 65_535] {
            let tasks = changed(|tasks| tasks[place] = task(&[(1, 5); 6], &edges(count)));
            assert_eq!(tasks, Err((3, line)));
        }
    }
}

/// The changed place of an edge or a vertex, and the line of the vertex and of the edge there.
const PLACES: [(usize, usize, usize, usize); 3] = [(0, 0, 2, 5), (1, 1, 10, 13), (2, 2, 18, 21)];

#[test]
fn e_and_d() {
    for (place, at, line, _) in PLACES {
        for e in [1, 5] {
            let said = changed(|tasks| tasks[place].vertices[at].0 = e);
            assert_eq!(said, Ok(TABLE_BYTES));
        }
        // Longer than its own deadline, and within its bounds.
        for e in [6, 1_000] {
            let said = changed(|tasks| tasks[place].vertices[at].0 = e);
            assert_eq!(said, Err((13, line)));
        }
        // 65,537 is 1 in its low bytes.
        for e in [0, 1_001, 65_535, 65_537, u32::MAX] {
            let said = changed(|tasks| tasks[place].vertices[at].0 = e);
            assert_eq!(said, Err((3, line)));
        }
        let d = |d: u32| {
            changed(|tasks| {
                let edges = tasks[place].edges.iter_mut();
                edges.for_each(|edge| edge.2 = 1_000);
                tasks[place].vertices[at] = (1, d);
            })
        };
        for within in [1, 201, 1_000] {
            assert_eq!(d(within), Ok(TABLE_BYTES));
        }
        for outside in [0, 1_001, 65_535, 65_537, u32::MAX] {
            assert_eq!(d(outside), Err((3, line)));
        }
    }
}

#[test]
fn p() {
    for (place, at, _, line) in PLACES {
        let said = |p: u32| {
            changed(|tasks| {
                tasks[place].vertices.fill((1, 1));
                tasks[place].edges[at].2 = p;
            })
        };
        for p in [1, 1_001, 60_000] {
            assert_eq!(said(p), Ok(TABLE_BYTES));
        }
        for p in [0, 60_001, 65_535, 65_545, u32::MAX] {
            assert_eq!(said(p), Err((3, line)));
        }
    }
}

#[test]
fn d_of_the_starting_vertex() {
    for (place, at, _, line) in PLACES {
        // The edges start from vertices 0, 1 and 2.
        let said = |d: u32, p: u32| {
            changed(|tasks| {
                tasks[place].vertices[at] = (1, d);
                tasks[place].edges[at].2 = p;
            })
        };
        for (d, p) in [(9, 9), (1, 1), (1_000, 1_000), (1_000, 60_000)] {
            assert_eq!(said(d, p), Ok(TABLE_BYTES));
        }
        for (d, p) in [(10, 9), (2, 1), (1_000, 999)] {
            assert_eq!(said(d, p), Err((4, line)));
        }
    }
    // d of the vertex that an edge leads to doesn't matter.
    let apart = task(&[(1, 5), (1, 1_000)], &[(0, 1, 5)]);
    assert_eq!(said(&[apart], PLENTY), Ok(7 + 3 * 11 + 3));
}

#[test]
fn from_and_to() {
    // One edge, behind the three vertices.
    let said = |place: usize, from: usize, to: usize| {
        changed(|tasks| tasks[place].edges = vec![(from, to, 9)])
    };
    for (place, line) in [(0, 5), (1, 12), (2, 19)] {
        for (from, to) in [(0, 2), (2, 0), (2, 2)] {
            assert_eq!(said(place, from, to), Ok(TABLE_BYTES - 22));
        }
        // 256 is 0 in its low byte.
        for end in [3, 255, 256, 257, 65_535] {
            for (from, to) in [(end, 0), (0, end), (end, end)] {
                assert_eq!(said(place, from, to), Err((3, line)));
            }
        }
    }
}

#[test]
fn masked_lengths() {
    for (place, own, last) in [(0, 1, 4), (1, 8, 11), (2, 15, 18)] {
        let m = |m: u32| changed(|tasks| tasks[place].m = m);
        assert_eq!(m(0), Ok(TABLE_BYTES));
        // Frame 04 has two bytes more.
        for within in [1, 2, 3, 4, 5] {
            assert_eq!(m(within), Ok(TABLE_BYTES + 4));
        }
        for too_large in [6, 1_000] {
            assert_eq!(m(too_large), Err((3, last)));
        }
        for outside in [1_001, 65_535, 65_536, 65_537, u32::MAX] {
            assert_eq!(m(outside), Err((3, own)));
        }
        // The largest e in the first vertex and in the last.
        for at in [0, 2] {
            let m = |m: u32| {
                changed(|tasks| {
                    tasks[place].vertices.swap(at, 1);
                    tasks[place].m = m;
                })
            };
            assert_eq!(m(5), Ok(TABLE_BYTES + 4));
            assert_eq!(m(6), Err((3, last)));
        }
        let long = |m: u32| {
            changed(|tasks| {
                let edges = tasks[place].edges.iter_mut();
                edges.for_each(|edge| edge.2 = 1_000);
                tasks[place].vertices[1] = (999, 1_000);
                tasks[place].m = m;
            })
        };
        assert_eq!(long(999), Ok(TABLE_BYTES + 4));
        assert_eq!(long(1_000), Err((3, last)));
        assert_eq!(long(1_001), Err((3, own)));
    }
}

#[test]
fn the_order_of_edges() {
    for (place, first) in [(0, 5), (1, 12), (2, 19)] {
        let said = |pairs: &[(usize, usize)]| {
            let edges = pairs.iter().map(|&(from, to)| (from, to, 9)).collect();
            changed(|tasks| tasks[place].edges = edges)
        };
        // Equal, falling in from, falling in to; the second edge or the third.
        assert_eq!(said(&[(0, 1), (0, 1)]), Err((5, first + 1)));
        assert_eq!(said(&[(1, 0), (0, 1)]), Err((5, first + 1)));
        assert_eq!(said(&[(1, 1), (0, 1)]), Err((5, first + 1)));
        assert_eq!(said(&[(0, 1), (0, 0)]), Err((5, first + 1)));
        assert_eq!(said(&[(0, 1), (2, 2), (2, 1)]), Err((5, first + 2)));
        assert_eq!(said(&[(0, 1), (2, 2), (1, 1)]), Err((5, first + 2)));
        // Rising in from and falling in to; and the next task's edges begin anew.
        assert_eq!(said(&[(0, 2), (1, 1), (2, 0)]), Ok(TABLE_BYTES));
        assert_eq!(said(&[(2, 2)]), Ok(TABLE_BYTES - 22));
    }
}

/// A fault that can be put into the three tasks, and the number and line of its refusal.
type Fault = (fn(&mut Vec<Task>), (u8, usize));

#[test]
fn the_first_line_decides() {
    let faults: [Fault; 10] = [
        (|tasks| tasks[0].m = 1_001, (3, 1)),
        (|tasks| tasks[0].vertices[0].1 = 1_001, (3, 2)),
        (|tasks| tasks[0].vertices[1].0 = 6, (13, 3)),
        (|tasks| tasks[0].vertices[2].0 = 0, (3, 4)),
        (|tasks| tasks[0].edges[1].2 = 4, (4, 6)),
        (|tasks| tasks[1].vertices[1].0 = 1_000, (13, 10)),
        (|tasks| tasks[1].m = 8, (3, 11)),
        (|tasks| tasks[1].edges[1] = (0, 1, 9), (5, 13)),
        (|tasks| tasks[2].edges[1].2 = 0, (3, 20)),
        (|tasks| tasks[2].edges[2].0 = 0, (5, 21)),
    ];
    for (number, (first, refusal)) in faults.iter().enumerate() {
        for (second, _) in &faults[number..] {
            let mut tasks = table();
            second(&mut tasks);
            first(&mut tasks);
            // A broken rule comes before 10.
            for bytes in [0, TABLE_BYTES - 1, PLENTY] {
                assert_eq!(said(&tasks, bytes), Err(*refusal));
            }
        }
    }
}

#[test]
fn within_a_line() {
    // The third edge of the second task, behind (1,0), every d being 5.
    let edge = |edge: (usize, usize, u32)| changed(|tasks| tasks[1].edges[2] = edge);
    // p below d but out of its bounds; a vertex that isn't there and p below d; both out of order too.
    for three in [(2, 2, 0), (2, 3, 4), (3, 2, 4), (0, 1, 0), (0, 3, 4)] {
        assert_eq!(edge(three), Err((3, 14)));
    }
    for three in [(0, 3, 9), (0, 1, 60_001), (256, 0, 9)] {
        assert_eq!(edge(three), Err((3, 14)));
    }
    for four in [(2, 2, 4), (0, 1, 4), (1, 0, 4), (0, 2, 1)] {
        assert_eq!(edge(four), Err((4, 14)));
    }
    for five in [(0, 1, 5), (1, 0, 5), (0, 2, 60_000)] {
        assert_eq!(edge(five), Err((5, 14)));
    }
    assert_eq!(edge((1, 1, 5)), Ok(TABLE_BYTES));
    // A masked length that is too large comes after an earlier vertex and before an edge.
    let said = |change: fn(&mut Task)| {
        changed(|tasks| {
            tasks[1].m = 8;
            change(&mut tasks[1]);
        })
    };
    assert_eq!(said(|task| task.vertices[1].0 = 0), Err((3, 10)));
    assert_eq!(said(|task| task.vertices[2].0 = 0), Err((3, 11)));
    assert_eq!(said(|task| task.edges[0].2 = 4), Err((3, 11)));
    let last = |last: (u32, u32)| changed(|tasks| (tasks[1].m, tasks[1].vertices[2]) = (8, last));
    assert_eq!(last((8, 9)), Ok(TABLE_BYTES + 4));
    // It comes after a job longer than its own deadline, whether that has as much e or not.
    assert_eq!([last((6, 5)), last((8, 5))], [Err((13, 11)); 2]);
}

#[test]
fn the_refusal_of_a_short_area_is_row_10() {
    let mut tasks = record(&r1(2));
    let refusal = write(&tasks, &mut []).unwrap_err();
    assert_eq!((refusal.row, refusal.place), (Row::WorkArea, 90));
    tasks.tasks[2].edges[0].to = VertexNo(1);
    let refusal = write(&tasks, &mut []).unwrap_err();
    assert_eq!((refusal.row, refusal.place), (Row::Number, 9));
    tasks.tasks[0].vertices[0].d = Ticks(6);
    let refusal = write(&tasks, &mut []).unwrap_err();
    assert_eq!((refusal.row, refusal.place), (Row::Deadline, 3));
}
