//! The seven worked programs of the page, and cases at the edges of its rules.

use second::generate::{keeper, limit_row, make_mistake, row, MISTAKES};
use second::orders::{run, Came, Talk, Waits};
use second::{go, go_limited, judge, read, Answer, Draw, Ended, Ran};

const PLENTY: u64 = u64::MAX;

/// The rows of section 11.
const SEVEN: [&str; 7] = [
    "8 2 1 2 2 1 3 0 1 5 1 6 2 7 0 4 5 6 7 0 1 2 3 0 0 1 8 1 0 0 1 0 0 40 1 0 0 2 2 0 0 7 1 0 0 1 0 0 2 2 \
     0 0 2 0 1 1 0 2 1 0 1 1 0",
    "8 2 1 2 2 1 3 0 1 5 1 6 2 7 0 4 5 6 7 0 1 2 3 0 0 1 8 1 0 0 1 0 0 40 2 0 0 7 1 0 0 1 0 0 2 2 0 0 2 0 \
     1 1 0 2 1 0 1 1 0",
    "8 4 1 2 2 0 1 3 0 3 5 6 1 4 2 7 0 4 5 6 7 0 1 2 3 0 0 1 8 1 0 1 0 0 3 0 0 1 0 0 1 3 0 0 1 0 0 2 3 0 \
     0 1 0 0 3 3 0 0 1 0 0 4 3 0 0 1 0 0 5 3 0 0 1 0 0 6 3 0 0 1 0 0 7 3 0 0 1 0 0 8 3 0 0 1 0 0 9 3 0 0 \
     1 0 0 10 3 0 1 2 0 0 7 1 0 0 1 0 1 2 4 0 2 0 1 9 1 1 0 1 2 1 0 1 1 1 0 1 0 0",
    "6 2 1 1 2 0 1 4 2 5 0 3 4 5 0 1 2 0 0 0 8 1 0 0 8 2 2 0 0 0 0 1 0 0 1 2 0 0 1 0 1 0 0 3 2 3 3 0 1 1 \
     1 0 1 2 1 0 1 2 0 2 2 2 0 0",
    "10 2 1 1 2 0 1 4 2 5 0 1 7 0 2 9 0 3 4 5 0 1 2 8 9 6 7 0 0 1 8 1 0 0 8 2 1 0 0 2 1 0 7 1 0 0 1 0 0 1 \
     2 0 0 1 0 2 1 0 1 0 0 2 6 3 0 1 1 1 0 21 2 1 0 1 0 1 0 0",
    "1 0 0 0 0 0 8 1 0 0 0 1 0 0 0 8 1 0 0 0",
    "4 2 1 0 1 3 0 2 3 0 1 0 0 0 8 1 0 0 0 1 0 0 0 0",
];

fn words(line: &str) -> Vec<u32> {
    let mut words = Vec::new();
    second::rows::words(line.as_bytes(), &mut words).expect("decimal words");
    words
}

/// The n-th program of section 11, from 1 on.
fn worked(n: usize) -> Vec<u32> {
    words(SEVEN[n - 1])
}

/// Runs in the fixed order and in a few drawn ones, which must agree.
fn ran(row: &[u32], most: u32, turns: u32, room: usize) -> Ran {
    let fixed = go(row, most, turns, room, None, PLENTY);
    for seed in 0..20 {
        assert_eq!(go(row, most, turns, room, Some(seed), PLENTY), fixed);
    }
    fixed
}

fn came(row: &[u32], turns: u32, seed: u64) -> Came {
    run(&read(row).expect("a program"), 1000, turns, seed, None, |_| {})
}

#[test]
fn lengths_and_answers() {
    let lengths = [63, 59, 138, 64, 78, 20, 24];
    let answers = [true, false, true, false, true, true, false];
    for n in 1..=7 {
        let row = worked(n);
        assert_eq!(row.len(), lengths[n - 1]);
        assert_eq!(judge(&row), if answers[n - 1] { Answer::Keeps } else { Answer::Careless });
        if !answers[n - 1] {
            assert_eq!(ran(&row, 10, 10, 10), Ran::Unkept);
        }
        // Nothing shorter is a program with the same first word, unless a process ends there.
        assert_eq!(judge(&row[..row.len() - 1]), Answer::NoProgram);
        let mut long = row.clone();
        long.push(0);
        assert_eq!(judge(&long), Answer::NoProgram);
    }
}

#[test]
fn the_clerk_and_the_till() {
    let row = worked(1);
    assert_eq!(ran(&row, 2, 1, 1), Ran::Done(vec![42]));
    assert_eq!(ran(&row, u32::MAX, u32::MAX, usize::MAX), Ran::Done(vec![42]));
    assert_eq!(ran(&row, 2, 0, 1), Ran::Spent(vec![]));
    assert_eq!(ran(&row, 1, 1, 1), Ran::Crowded);
    assert_eq!(ran(&row, 1, 0, 1), Ran::Spent(vec![]));
    assert_eq!(ran(&row, 0, 0, 1), Ran::Crowded);
    assert_eq!(ran(&row, 2, 1, 0), Ran::OutFull);
    assert_eq!(ran(&row, 1, 1, 0), Ran::Crowded);
    // Seven steps, in every order.
    for seed in 0..50 {
        assert_eq!(go_limited(&row, 2, 1, 1, Some(seed), PLENTY, Some(7)), Ran::Done(vec![42]));
        assert_eq!(go_limited(&row, 2, 1, 1, Some(seed), PLENTY, Some(6)), Ran::TooLong);
    }
}

#[test]
fn the_hasty_clerk_jams() {
    for seed in 0..20 {
        let Came::Jammed(left) = came(&worked(2), 5, seed) else { panic!("no jam") };
        assert_eq!(left.len(), 2);
        for (w, one) in left.iter().enumerate() {
            assert_eq!((one.worker, one.process), (w, w));
            let talk =
                Waits::Talk { what: Talk::Take, conversation: 0, line: Some(0), others: vec![(1 - w, false)] };
            assert_eq!(one.waits, talk);
        }
        assert_eq!(came(&worked(2), 0, seed), Came::OutOfTurns);
    }
}

#[test]
fn one_more_or_that_is_all() {
    let row = worked(3);
    assert_eq!(ran(&row, 9, 11, 9), Ran::Done(vec![55]));
    assert_eq!(ran(&row, 9, 10, 9), Ran::Spent(vec![]));
    assert_eq!(ran(&row, 9, 5, 9), Ran::Spent(vec![]));
}

#[test]
fn handed_on_twice() {
    for seed in 0..20 {
        let Came::Jammed(left) = came(&worked(4), 5, seed) else { panic!("no jam") };
        assert_eq!(left.len(), 1);
        let talk = Waits::Talk { what: Talk::Give, conversation: 2, line: Some(0), others: vec![(1, true)] };
        assert_eq!((left[0].worker, &left[0].waits), (2, &talk));
    }
}

#[test]
fn lane_to_lane() {
    let row = worked(5);
    assert_eq!(ran(&row, 3, 2, 9), Ran::Done(vec![42]));
    assert_eq!(ran(&row, 3, 1, 9), Ran::Spent(vec![]));
    assert_eq!(ran(&row, 3, 0, 9), Ran::Spent(vec![]));
    assert_eq!(ran(&row, 2, 2, 9), Ran::Crowded);
}

#[test]
fn for_ever() {
    let row = worked(6);
    assert_eq!(ran(&row, 21, 20, 9), Ran::Spent(vec![]));
    assert_eq!(ran(&row, 20, 20, 9), Ran::Crowded);
    // The fixed order needs no more memory for more turns.
    assert_eq!(go(&row, u32::MAX, 300_000, 0, None, PLENTY), Ran::Spent(vec![]));
    assert_eq!(go(&row, 300_000, 300_000, 0, None, PLENTY), Ran::Crowded);
    assert_eq!(go_limited(&row, u32::MAX, u32::MAX, 0, None, PLENTY, Some(1000)), Ran::TooLong);
}

#[test]
fn stopping_too_early() {
    for seed in 0..20 {
        assert_eq!(came(&worked(7), 1, seed), Came::AllStopped);
        assert_eq!(came(&worked(7), 0, seed), Came::OutOfTurns);
    }
}

#[test]
fn few_comes_first() {
    assert_eq!(go(&[], 0, 0, 0, None, 4095), Ran::Few);
    assert_eq!(go(&[], 0, 0, 0, None, 4096), Ran::Unread);
    assert_eq!(go(&[0], 1, 0, 0, None, 4096 + 127), Ran::Few);
    assert_eq!(go(&[0], 1, 0, 0, None, 4096 + 128), Ran::Unkept);
    let most = u32::MAX;
    assert_eq!(go(&worked(1), most, 9, 9, None, 4096 + 128 * most as u64 - 1), Ran::Few);
    assert_eq!(go(&worked(1), most, 9, 9, None, 4096 + 128 * most as u64), Ran::Done(vec![42]));
}

#[test]
fn crowded_before_out_full_before_spent() {
    // show 1, show 2, start 1; become 0
    let row = words("1 0 0  0 0 0  7 0 1 7 0 2 8 1 0 0 9 0 0 0  1 0 0 0 0");
    assert_eq!(judge(&row), Answer::Keeps);
    assert_eq!(ran(&row, 2, 9, 0), Ran::Crowded);
    assert_eq!(ran(&row, 2, 9, 9), Ran::Crowded);
    assert_eq!(ran(&row, 99, 9, 9), Ran::OutFull);
    assert_eq!(ran(&row, 99, 9, 10), Ran::Spent(vec![1, 2, 1, 2, 1, 2, 1, 2, 1, 2]));
    assert_eq!(ran(&row, 99, 9, 11), Ran::Spent(vec![1, 2, 1, 2, 1, 2, 1, 2, 1, 2]));
    assert_eq!(ran(&row, 5, 9, 11), Ran::Crowded);
    assert_eq!(ran(&row, 6, 9, 11), Ran::Spent(vec![1, 2, 1, 2, 1, 2, 1, 2, 1, 2]));
}

#[test]
fn shown_as_it_was() {
    let mut runner = second::Runner::new();
    let row = words("1 0 0  0 0 0  7 0 1 7 0 2 8 1 0 0 9 0 0 0  1 0 0 0 0");
    for (most, turns, room, ended, left) in [
        (99, 3, 6, Ended::Spent(4), vec![1, 2, 1, 2, 9, 9]),
        (99, 3, 4, Ended::Spent(4), vec![1, 2, 1, 2]),
        // Crowded after two numbers, or four, of which there is no trace.
        (1, 3, 6, Ended::Crowded, vec![9; 6]),
        (2, 3, 6, Ended::Crowded, vec![9; 6]),
        (2, 3, 1, Ended::Crowded, vec![9; 1]),
        (0, 3, 0, Ended::Crowded, vec![]),
    ] {
        let mut shown = vec![9; room];
        assert_eq!(runner.go(&row, most, turns, &mut shown, PLENTY), ended);
        assert_eq!(shown, left);
    }
    let mut shown = vec![9; 3];
    assert_eq!(runner.go(&row, 99, 3, &mut shown, PLENTY), Ended::OutFull);
    assert_eq!(runner.go(&worked(1), 99, 3, &mut shown, PLENTY), Ended::Done(1));
    assert_eq!(runner.go(&worked(2), 99, 3, &mut shown, PLENTY), Ended::Unkept);
    assert_eq!(runner.go(&row[..row.len() - 1], 99, 3, &mut shown, PLENTY), Ended::Unread);
    assert_eq!(runner.go(&row, 99, 3, &mut shown, 4096 + 99 * 128 - 1), Ended::Few);
    assert_eq!(shown[0], 42);
}

#[test]
fn shortest() {
    assert_eq!(judge(&[]), Answer::NoProgram);
    assert_eq!(judge(&[0]), Answer::Careless);
    assert_eq!(judge(&[0, 0]), Answer::NoProgram);
    assert_eq!(judge(&[0, 0, 0, 0]), Answer::NoProgram);
    assert_eq!(judge(&[0, 0, 0, 0, 0]), Answer::Keeps);
    assert_eq!(judge(&[0, 0, 0, 0, 10]), Answer::NoProgram);
    assert_eq!(judge(&[1, 5, 0]), Answer::NoProgram);
    assert_eq!(judge(&[1, 0, 0]), Answer::Careless);
    assert_eq!(ran(&[0, 0, 0, 0, 0], 1, 0, 0), Ran::Done(vec![]));
    assert_eq!(ran(&[0, 0, 0, 0, 0], 0, 0, 0), Ran::Crowded);
    for word in [1, 2, 256, 257, 1 << 31, u32::MAX - 1, u32::MAX] {
        assert_eq!(judge(&[word]), Answer::NoProgram);
        assert_eq!(judge(&[word; 16]), Answer::NoProgram);
        assert_eq!(judge(&[0, word]), Answer::NoProgram);
        for long in 0..6 {
            for action in [8, 9] {
                let mut row = vec![0, 0, 0, 0, action, 0, word];
                row.extend(vec![0; long]);
                // The list, a 0 for no numbers, and for start a stop.
                let fine = word as u64 + 1 + (action == 8) as u64 == long as u64;
                assert_eq!(judge(&row) == Answer::Careless, fine, "{row:?}");
                let mut row = vec![0, 0, 0, 0, action, 0, 0, word];
                row.extend(vec![0; long]);
                let fine = 2 * word as u64 + (action == 8) as u64 == long as u64;
                assert_eq!(judge(&row) == Answer::Careless, fine, "{row:?}");
            }
        }
    }
}

#[test]
fn limits() {
    let mut draw = Draw(5);
    for _ in 0..60 {
        for which in 0..=8 {
            assert_eq!(judge(&limit_row(&mut draw, which, 0)), Answer::Keeps, "limit {which}");
            assert_eq!(judge(&limit_row(&mut draw, which, 1)), Answer::NoProgram, "past limit {which}");
        }
        for which in 9..=11 {
            assert_ne!(judge(&limit_row(&mut draw, which, 0)), Answer::Careless, "limit {which}");
            assert_eq!(judge(&limit_row(&mut draw, which, 1)), Answer::NoProgram, "past limit {which}");
        }
    }
    // if nested 255 deep leaves one level: enough for a number, not for a sum; 256 deep leaves none.
    for (ways, last, answer) in [
        (255, "5 0 0 1 0", Answer::Keeps),
        (255, "5 0 2 0 1 0 1 0", Answer::NoProgram),
        (255, "6 0 1 0 0", Answer::Keeps),
        (255, "6 2 0 1 0 1 0 0", Answer::NoProgram),
        (254, "6 2 0 1 0 1 0 0", Answer::Keeps),
        (256, "0", Answer::Keeps),
        (256, "8 1 0 0 0", Answer::Keeps),
        (256, "8 1 0 1 0 0 0", Answer::NoProgram),
        (256, "9 0 0 0", Answer::Keeps),
        (256, "2 0 0 0", Answer::Careless),
        (256, "3 0 0 0", Answer::Careless),
        (256, "5 0 0 1 0", Answer::NoProgram),
        (256, "7 0 1 0", Answer::NoProgram),
        (256, "1 0 0 1 0", Answer::NoProgram),
        (256, "4 0 0 0", Answer::NoProgram),
        (256, "6 0 1 0 0", Answer::NoProgram),
        (255, "4 0 0 0", Answer::Careless),
    ] {
        for side in 0..2 {
            let mut row = vec![1, 0, 0, 0, 0, 1];
            for _ in 0..ways {
                row.extend([6, 0, 1]);
                if side == 1 {
                    row.push(0);
                }
            }
            row.extend(words(last));
            if side == 0 {
                row.extend(vec![0; ways]);
            }
            row.extend([1, 0, 0, 0, 0]);
            assert_eq!(judge(&row), answer, "{ways} {last}");
        }
    }
}

#[test]
fn points() {
    let tail = "0 0 0 0";
    for (points, answer) in [
        ("1 0 0", true),
        ("1 0 1", false),
        ("2 0 0 1 0", true),
        ("2 0 0 0 1", true),
        ("2 0 0 0 0", false),
        ("2 1 0 2 1 1 0", true),
        ("2 1 0 2 0 1 0", false),
        ("2 1 0 1 1 1 0", false),
        ("1 1 0 0", false),
        ("1 3 0 0 0", false),
        ("2 3 0 0 4 1 1 1 0", true),
        ("2 3 0 1 4 1 1 1 0", false),
        ("3 3 0 2 4 1 2 0 1 0 2", true),
        ("3 3 0 2 4 2 1 0 1 0 2", false),
        ("2 1 2 2 2 1 0", false),
        ("2 1 4294967295 2 4294967295 1 0", false),
        ("1 0 4294967295", false),
    ] {
        let row = words(&format!("{points} {tail}"));
        assert_eq!(judge(&row), if answer { Answer::Keeps } else { Answer::Careless }, "{points}");
    }
}

#[test]
fn walks() {
    // Points: 0 over (its own other side), 1 gives 0, 2 takes 0, 3 offers 0 1, 4 chooses 0 2.
    let points = "5 0 1 0 2 0 4 0 1 3 0 2  0 2 1 4 3";
    for (processes, answer) in [
        // The first process, then others from 1 on.
        ("0 0 0 0", Answer::Keeps),
        ("1 0 0 0 0", Answer::Careless),
        ("0 1 1 0", Answer::Careless),
        ("0 1 0 0", Answer::NoProgram),
        // start 1: give, or not
        ("0 0 0 8 1 0 0 1 0 0 5 0  1 2 0 1 2 0 0 0", Answer::Keeps),
        ("0 0 0 8 1 0 0 1 0 0 5 0  1 2 0 0 2 0 0 0", Answer::Careless),
        ("0 0 0 8 1 0 0 1 0 1 0 0  1 2 0 1 2 0 0 0", Answer::Careless),
        ("0 0 0 8 1 0 0 0  1 2 0 1 2 0 0 0", Answer::Careless),
        ("0 0 0 8 1 0 0 1 1 0 5 0  1 2 0 1 2 0 0 0", Answer::Careless),
        // choose and offer
        ("0 0 1 8 1 0 0 3 0 0 0  1 3 0 1 4 0 0 1 0 0 1 0", Answer::Keeps),
        ("0 0 1 8 1 0 0 3 0 1 2 0 0 0  1 3 0 1 4 0 0 1 0 0 1 0", Answer::Keeps),
        ("0 0 1 8 1 0 0 3 0 1 0  1 3 0 1 4 0 0 1 0 0 1 0", Answer::Careless),
        ("0 0 1 8 1 0 0 3 0 2 2 0 0 0  1 3 0 1 4 0 0 1 0 0 1 0", Answer::Careless),
        ("0 0 1 8 1 0 0 3 0 0 0  1 3 0 1 4 0 1 0 0 1 0 0", Answer::Careless),
        // show elsewhere
        ("0 0 0 7 0 1 0  1 0 0 0 0", Answer::Keeps),
        ("0 0 0 0  1 0 0 0 7 0 1 0", Answer::Careless),
        // numbers handed in
        ("0 0 0 8 1 0 1 0 7 0  1 0 1 1 0", Answer::Keeps),
        ("0 0 0 8 1 0 0 0  1 0 1 1 0", Answer::Careless),
        ("0 0 0 8 1 0 2 0 7 0 7 0  1 0 1 1 0", Answer::Careless),
        ("0 0 0 8 1 0 1 1 0 0  1 0 1 1 0", Answer::Careless),
        // become
        ("0 0 0 9 0 0 0", Answer::Keeps),
        ("0 0 0 9 1 0 0  0 0 0 0", Answer::Careless),
        ("0 0 0 0  0 0 0 9 0 0 0", Answer::Careless),
        ("0 0 0 0  0 0 0 9 1 0 0", Answer::Keeps),
        ("0 0 0 0  0 0 0 9 2 0 0", Answer::Careless),
        ("0 0 0 8 1 0 0 9 0 0 0  1 0 0 0 0", Answer::Keeps),
        ("0 0 0 8 1 0 0 9 0 0 0  1 1 0 0 1 0 0 7 0", Answer::Careless),
        // starting process 0, or one that is not there, or one without conversations
        ("0 0 0 8 0 0 0 0", Answer::Careless),
        ("0 0 0 8 1 0 0 0", Answer::Careless),
        ("0 0 0 8 4294967295 0 0 0", Answer::Careless),
        ("0 0 0 8 1 0 0 0  0 0 0 0", Answer::Careless),
        // handing on: the order and the numbers count
        ("0 0 0 8 1 0 0 8 2 1 0 0 0  1 1 0 0 1 0 0 7 0  2 0 2 0 1 2 1 0 0", Answer::Keeps),
        ("0 0 0 8 1 0 0 8 2 1 1 0 0  1 1 0 0 1 0 0 7 0  2 0 2 0 1 2 1 0 0", Answer::Careless),
        ("0 0 0 8 1 0 0 8 2 0 0 0  1 1 0 0 1 0 0 7 0  2 0 2 0 1 2 1 0 0", Answer::Careless),
        ("0 0 0 8 1 0 0 8 2 2 0 0 0 0  1 1 0 0 1 0 0 7 0  2 0 2 0 1 2 1 0 0", Answer::Careless),
        // begins where there is no point, and becomes itself
        ("0 0 0 0  1 99 0 0 9 1 1 0 0", Answer::Keeps),
        ("0 0 0 0  1 4294967295 0 0 9 1 1 0 0", Answer::Keeps),
        ("0 0 0 0  1 99 0 0 0", Answer::Careless),
        ("0 0 0 8 1 0 0 0  1 99 0 0 9 1 1 0 0", Answer::Careless),
        ("0 0 0 0  2 0 99 0 0 8 1 1 1 0 0", Answer::Keeps),
        ("0 0 0 0  2 99 0 0 0 8 1 1 1 0 9 1 2 0 0 0", Answer::Careless),
    ] {
        let row = words(&format!("{points} {processes}"));
        assert_eq!(judge(&row), answer, "{processes}");
    }
}

#[test]
fn careless_runs() {
    let shown = |text: &str, turns: u32| {
        let row = words(text);
        let program = read(&row).expect("a program");
        let mut all = Vec::new();
        for seed in 0..20 {
            let mut shown = Vec::new();
            let came = run(&program, 100, turns, seed, None, |n| shown.push(n));
            all.push((came, shown));
        }
        assert!(all.iter().all(|one| *one == all[0]));
        all.swap_remove(0)
    };
    // A variable that is not there is 0, and stays so.
    assert_eq!(shown("0 0 0 0 5 3 0 7 7 1 3 0", 0), (Came::AllStopped, vec![0]));
    // More numbers handed in than there are variables.
    assert_eq!(shown("0 0 0 0 9 1 0 2 0 7 0 8  0 0 1 7 2 1 0 1 1 0", 1), (Came::AllStopped, vec![15]));
    // Worker 0 shows whatever process it has become, and no other does, not even as process 0.
    assert_eq!(shown("0 0 0 0 8 1 0 0 7 0 1 0  0 0 0 7 0 2 0", 1), (Came::AllStopped, vec![1]));
    // No such process: no step, unless there is no turn left.
    let (came, _) = shown("0 0 0 0 8 7 0 0 0", 1);
    assert!(matches!(came, Came::Jammed(left) if left[0].waits == Waits::Start(7)));
    let (came, _) = shown("0 0 0 0 9 7 0 0", 1);
    assert!(matches!(came, Came::Jammed(left) if left[0].waits == Waits::Become(7)));
    assert_eq!(shown("0 0 0 0 8 7 0 0 0", 0).0, Came::OutOfTurns);
    assert_eq!(shown("0 0 0 0 9 7 0 0", 0).0, Came::OutOfTurns);
    // No such conversation.
    let (came, _) = shown("0 0 0 0 2 5 0 0", 1);
    let talk = Waits::Talk { what: Talk::Take, conversation: 5, line: None, others: vec![] };
    assert!(matches!(came, Came::Jammed(left) if left[0].waits == talk));
    // A way other than 0 is way 1.
    assert_eq!(shown("0 0 0 1 8 1 0 0 3 0 9 2 0 0 7 1 0 0  0 0 0 4 0 0 1 0 0 5 0", 1), (Came::AllStopped, vec![5]));
    // No process 0.
    assert!(matches!(shown("0", 1).0, Came::Jammed(left) if left[0].waits == Waits::Begin));
    // Too many.
    let row = words("0 0 0 0 8 0 0 0 0");
    assert_eq!(run(&read(&row).unwrap(), 5, 9, 1, None, |_| {}), Came::TooMany);
    assert_eq!(run(&read(&row).unwrap(), 0, 9, 1, None, |_| {}), Came::TooMany);
}

#[test]
fn one_end_of_two_workers() {
    // The first starts 1 and hands its line twice to 2, which hands it on once to 3 and keeps it once: so 2 and 3 have
    // one end. 2 waits to take there, as does 1, until 3 gives to 1; after which 1 gives to 2.
    let text = "0  0 0 0 8 1 0 0 8 2 2 0 0 0 0
        0 0 1 2 0 0 1 0 1 0 0
        0 0 1 8 3 1 1 0 2 2 0 0
        0 0 0 1 1 0 9 0";
    let row = words(text);
    for seed in 0..100 {
        assert_eq!(came(&row, 9, seed), Came::AllStopped);
    }
}

#[test]
fn lines_of_words() {
    let mut into = Vec::new();
    for (line, want) in [
        ("", Some(vec![])),
        (" \t 1  2\r", Some(vec![1, 2])),
        ("4294967295", Some(vec![u32::MAX])),
        ("4294967296", None),
        ("99999999999999999999999999", None),
        ("00000000000000000000000007", Some(vec![7])),
        ("+1", None),
        ("-1", None),
        ("1,2", None),
        ("0x1", None),
        ("1 x", None),
    ] {
        let got = second::rows::words(line.as_bytes(), &mut into).map(|_| into.clone());
        assert_eq!(got, want, "{line:?}");
    }
}

#[test]
fn keepers_keep_and_orders_agree() {
    let mut draw = Draw(2024);
    for _ in 0..400 {
        let row = keeper(&mut draw).write();
        assert_eq!(judge(&row), Answer::Keeps, "{}", second::rows::line(&row));
        for (most, turns, room) in [(100, 12, 50), (7, 5, 2), (300, 40, 100)] {
            let fixed = go_limited(&row, most, turns, room, None, PLENTY, Some(200_000));
            assert_ne!(fixed, Ran::Jammed);
            for seed in 0..3 {
                let drawn = go_limited(&row, most, turns, room, Some(seed), PLENTY, Some(200_000));
                if fixed != Ran::TooLong && drawn != Ran::TooLong {
                    assert_eq!(fixed, drawn, "{}", second::rows::line(&row));
                }
            }
        }
    }
}

#[test]
fn every_mistake_is_made() {
    let mut draw = Draw(7);
    let mut careless = [0; MISTAKES];
    for _ in 0..60 {
        for (which, count) in careless.iter_mut().enumerate() {
            let mut prog = keeper(&mut draw);
            if make_mistake(&mut draw, &mut prog, which) {
                *count += (judge(&prog.write()) == Answer::Careless) as usize;
            }
        }
    }
    for (which, count) in careless.iter().enumerate() {
        assert!(*count > 0, "mistake {which} is never careless");
    }
}

#[test]
fn anything_goes() {
    let mut draw = Draw(11);
    for _ in 0..3000 {
        let (_, row) = row(&mut draw);
        let answer = judge(&row);
        assert_eq!(read(&row).is_none(), answer == Answer::NoProgram);
        go_limited(&row, 50, 20, 10, None, PLENTY, Some(20_000));
        if let Some(program) = read(&row) {
            for seed in 0..2 {
                let came = run(&program, 50, 10, seed, Some(20_000), |_| {});
                if answer == Answer::Keeps {
                    assert!(!matches!(came, Came::Jammed(_)));
                }
            }
        }
        // Every shorter row is judged too.
        if row.len() < 80 {
            for end in 0..row.len() {
                judge(&row[..end]);
            }
        }
    }
}
