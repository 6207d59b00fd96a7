//! Words and exchanges a second of both, best of several, and how cost grows.

use second::Runner;
use std::hint::black_box;
use yefimora::{go, go_seeded, judge, work_words, Judged};

// Rows, put together by hand.

fn num(n: u32) -> Vec<u32> {
    vec![0, n]
}
fn var(x: u32) -> Vec<u32> {
    vec![1, x]
}
fn op(k: u32, a: Vec<u32>, b: Vec<u32>) -> Vec<u32> {
    [vec![k], a, b].concat()
}
fn give(c: u32, e: Vec<u32>) -> Vec<u32> {
    [vec![1, c], e].concat()
}
fn take(c: u32, x: u32) -> Vec<u32> {
    vec![2, c, x]
}
fn choose(c: u32, k: u32) -> Vec<u32> {
    vec![3, c, k]
}
fn call(code: u32, f: u32, cs: &[u32], es: &[Vec<u32>]) -> Vec<u32> {
    [vec![code, f, cs.len() as u32], cs.to_vec(), vec![es.len() as u32], es.concat()].concat()
}
fn start(f: u32, cs: &[u32], es: &[Vec<u32>]) -> Vec<u32> {
    call(8, f, cs, es)
}
fn become_it(f: u32, cs: &[u32], es: &[Vec<u32>]) -> Vec<u32> {
    call(9, f, cs, es)
}
fn process(talks: &[u32], numbers: u32, variables: u32, body: &[Vec<u32>]) -> Vec<u32> {
    [vec![talks.len() as u32], talks.to_vec(), vec![numbers, variables], body.concat()].concat()
}
fn program(points: &[&[u32]], others: &[u32], processes: &[Vec<u32>]) -> Vec<u32> {
    [vec![points.len() as u32], points.concat(), others.to_vec(), processes.concat()].concat()
}
const STOP: [u32; 1] = [0];

/// Two processes that pass a number to and fro, `k` times between one `become` and the next.
fn ping_pong(k: usize) -> Vec<u32> {
    let ping = [[give(1, var(0)), take(1, 0)].concat().repeat(k), become_it(1, &[0, 1], &[var(0)])];
    let pong = [[take(0, 0), give(0, op(2, var(0), num(1)))].concat().repeat(k), become_it(2, &[0], &[])];
    program(
        &[&[1, 1], &[2, 0], &[0], &[2, 4], &[1, 3], &[0]],
        &[3, 4, 5, 0, 1, 2],
        &[
            process(&[], 0, 0, &[start(2, &[], &[]), start(1, &[0], &[num(0)]), STOP.to_vec()]),
            process(&[2, 0], 1, 1, &ping),
            process(&[3], 0, 1, &pong),
        ],
    )
}

/// The same with choices in place of numbers: one side chooses, the other goes by it.
fn choices() -> Vec<u32> {
    program(
        &[&[3, 0, 1], &[0], &[4, 2, 3], &[0]],
        &[2, 3, 0, 1],
        &[
            process(&[], 0, 0, &[start(2, &[], &[]), start(1, &[0], &[]), STOP.to_vec()]),
            process(&[1, 0], 0, 0, &[choose(1, 0), become_it(1, &[0, 1], &[])]),
            process(&[2], 0, 0, &[vec![4, 0], become_it(2, &[0], &[]), STOP.to_vec()]),
        ],
    )
}

/// A line of processes, each of which hands on what it takes.
fn line(long: u32) -> Vec<u32> {
    program(
        &[&[1, 0], &[0], &[2, 2], &[0]],
        &[2, 3, 0, 1],
        &[
            process(&[], 0, 0, &[start(2, &[], &[num(long - 3)]), start(1, &[0], &[num(0)]), STOP.to_vec()]),
            process(&[1, 0], 1, 1, &[give(1, var(0)), become_it(1, &[0, 1], &[op(2, var(0), num(1))])]),
            process(
                &[2],
                1,
                1,
                &[
                    vec![6],
                    var(0),
                    start(2, &[], &[op(3, var(0), num(1))]),
                    become_it(3, &[0, 1], &[]),
                    become_it(4, &[0], &[]),
                ],
            ),
            process(&[2, 0], 0, 1, &[take(0, 0), give(1, var(0)), become_it(3, &[0, 1], &[])]),
            process(&[2], 0, 1, &[take(0, 0), become_it(4, &[0], &[])]),
        ],
    )
}

/// How many exchanges are made: each process of the line is started with one turn less than the one before it, and takes as
/// many numbers as it then has turns for, so the last takes `turns - long` and each before it one more.
fn line_exchanges(long: u32, turns: u32) -> f64 {
    let links = (long - 2) as f64;
    links * (turns - long) as f64 + links * (links - 1.0) / 2.0
}

/// A ping-pong whose bodies are as long as fits into so many words.
fn long_program(words: usize) -> Vec<u32> {
    let mut k = 1;
    while ping_pong(k + 1).len() <= words {
        k += 1;
    }
    ping_pong(k)
}

extern "C" {
    /// Processor time that this process has used, in microseconds (the C library's).
    fn clock() -> std::ffi::c_long;
}

/// The least processor time of several runs, in seconds.
fn best(times: usize, mut run: impl FnMut()) -> f64 {
    // It takes nothing and only reads a clock.
    let now = || unsafe { clock() } as f64 / 1e6;
    (0..times)
        .map(|_| {
            let began = now();
            run();
            now() - began
        })
        .fold(f64::MAX, f64::min)
}

fn judging() {
    println!("judge, million words a second    library   second   ratio");
    for words in [64, 1024, 16384] {
        let row = long_program(words);
        assert_eq!(judge(&row), Judged::Keeps);
        let rounds = 4_000_000 / row.len();
        let rate = |s: f64| (rounds * row.len()) as f64 / s / 1e6;
        let ours = rate(best(7, || (0..rounds).for_each(|_| { black_box(judge(black_box(&row))); })));
        let theirs = rate(best(7, || (0..rounds).for_each(|_| { black_box(second::judge(black_box(&row))); })));
        println!("  {:>6} words                    {ours:>7.1}  {theirs:>7.1}  {:>6.2}", row.len(), ours / theirs);
    }
}

/// Million exchanges a second of the library, in the fixed and in a drawn order, and of the second implementation.
fn rates(row: &[u32], most: u32, turns: u32, exchanges: f64) -> (f64, f64, f64) {
    let mut shown = [0; 8];
    let mut work = vec![0; work_words(most) as usize];
    let rate = |s: f64| exchanges / s / 1e6;
    let ours = rate(best(5, || { black_box(go(row, most, turns, &mut shown, &mut work)); }));
    let drawn = rate(best(3, || { black_box(go_seeded(row, most, turns, 1, &mut shown, &mut work)); }));
    let mut runner = Runner::new();
    let words = work_words(most);
    let theirs = rate(best(5, || { black_box(runner.go(row, most, turns, &mut shown, words)); }));
    (ours, drawn, theirs)
}

fn running() {
    println!("go, million exchanges a second   library   drawn   second   ratio");
    let turns = 1_000_000;
    for (name, row, most, turns, exchanges) in [
        ("ping-pong, one a become", ping_pong(1), 3, turns, 2.0 * turns as f64),
        ("ping-pong, 16 a become", ping_pong(16), 3, turns / 16, 2.0 * turns as f64),
        ("ping-pong with choices", choices(), 3, turns, turns as f64),
        ("a line of 200", line(200), 200, turns / 100, line_exchanges(200, turns / 100)),
    ] {
        assert_eq!(judge(&row), Judged::Keeps);
        let (ours, drawn, theirs) = rates(&row, most, turns, exchanges);
        println!("  {name:<28}  {ours:>8.1} {drawn:>7.1}  {theirs:>7.1}  {:>6.2}", ours / theirs);
    }
}

fn growth() {
    println!("go, nanoseconds an exchange, as a program grows");
    print!("  words:    ");
    for words in [64, 1024, 16384] {
        let row = long_program(words);
        let per = ping_pong_count(&row);
        let turns = 400_000 / per;
        let (rate, _, _) = rates(&row, 3, turns as u32, 2.0 * (turns * per) as f64);
        print!("  {:>5}: {:>5.1}", row.len(), 1e3 / rate);
    }
    print!("\n  processes:");
    for long in [5, 20, 200, 2000] {
        let turns = long + 400_000 / long;
        let (rate, _, _) = rates(&line(long), long, turns, line_exchanges(long, turns));
        print!("  {long:>5}: {:>5.1}", 1e3 / rate);
    }
    print!("\n  turns:    ");
    for turns in [1_000, 10_000, 100_000, 1_000_000] {
        let (rate, _, _) = rates(&ping_pong(1), 3, turns, 2.0 * turns as f64);
        print!("  {turns:>5}: {:>5.1}", 1e3 / rate);
    }
    println!();
}

/// How often the number goes to and fro between one `become` and the next.
fn ping_pong_count(row: &[u32]) -> usize {
    (1..).take_while(|&k| ping_pong(k).len() <= row.len()).last().unwrap_or(1)
}

pub fn speed() {
    judging();
    running();
    growth();
}
