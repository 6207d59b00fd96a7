//! Answers and numbers of both, on random rows of all kinds and sizes.

use second::generate;
use second::{Answer, Draw, Runner};
use std::collections::BTreeMap;
use yefimora::{go, go_seeded, judge, work_words, Judged, Ran};

/// What stands in `shown` and `work` before a call.
const BEFORE: u32 = 0xDEAD_BEEF;
/// Steps after which the second implementation gives up; such a run is not compared.
const MOST_STEPS: u64 = 2_000_000;

fn same_answer(ours: Judged, theirs: Answer) -> bool {
    matches!(
        (ours, theirs),
        (Judged::Keeps, Answer::Keeps) | (Judged::Careless, Answer::Careless) | (Judged::NoProgram, Answer::NoProgram)
    )
}

/// How a run is asked for.
struct Setting {
    most: u32,
    turns: u32,
    room: usize,
    work: usize,
    seed: Option<u64>,
}

impl Setting {
    fn draw(draw: &mut Draw) -> Setting {
        let most = [0, 1, 2, 3, 5, 8, 20, 64, 200, 300][draw.below(10)];
        let turns = [0, 1, 2, 3, 5, 10, 50, 400][draw.below(8)];
        let room = [0, 1, 2, 3, 10, 100, 5000][draw.below(7)];
        let enough = work_words(most) as usize;
        let work = if draw.chance(1, 40) { draw.below(enough) } else { enough + draw.below(3) };
        let seed = if draw.chance(1, 2) { Some(draw.next()) } else { None };
        Setting { most, turns, room, work, seed }
    }
}

/// What the library answers, if `shown` is as the answer promises.
fn ours(row: &[u32], s: &Setting, shown: &mut [u32], work: &mut [u32]) -> Result<second::Ran, String> {
    shown.fill(BEFORE);
    let ran = match s.seed {
        None => go(row, s.most, s.turns, shown, work),
        Some(seed) => go_seeded(row, s.most, s.turns, seed, shown, work),
    };
    let count = match ran {
        Ran::Done(k) | Ran::Spent(k) => k,
        _ => 0,
    };
    if count > shown.len() {
        return Err(format!("{ran:?}, with room for {} numbers", shown.len()));
    }
    if shown[count..].iter().any(|&x| x != BEFORE) {
        return Err(format!("{ran:?}, but the rest of `shown` is not as it was"));
    }
    let numbers = shown[..count].to_vec();
    Ok(match ran {
        Ran::Few => second::Ran::Few,
        Ran::Unread => second::Ran::Unread,
        Ran::Unkept => second::Ran::Unkept,
        Ran::Crowded => second::Ran::Crowded,
        Ran::OutFull => second::Ran::OutFull,
        Ran::Done(_) => second::Ran::Done(numbers),
        Ran::Spent(_) => second::Ran::Spent(numbers),
    })
}

fn theirs(row: &[u32], s: &Setting, runner: &mut Runner) -> second::Ran {
    // The second implementation's own order is fixed where ours is drawn, and drawn where ours is fixed.
    let _ = runner;
    let seed = match s.seed {
        None => Some(7),
        Some(_) => None,
    };
    second::go_limited(row, s.most, s.turns, s.room, seed, s.work as u64, Some(MOST_STEPS))
}

fn word(ran: &second::Ran) -> String {
    let text = ran.to_string();
    match text.split_once(' ') {
        Some((first, rest)) if first == "out" => format!("out {rest}"),
        Some((first, _)) => first.to_string(),
        None => text,
    }
}

/// True if no difference was found.
pub fn compare(count: u64, seed: u64) -> bool {
    let mut draw = Draw(seed);
    let mut runner = Runner::new();
    let mut judged = BTreeMap::new();
    let mut ended = BTreeMap::new();
    let mut longest = 0;
    for i in 0..count {
        let (kind, row) = generate::row(&mut draw);
        longest = longest.max(row.len());
        let (a, b) = (judge(&row), second::judge(&row));
        if !same_answer(a, b) {
            println!("difference at row {i} of seed {seed} ({kind}): judge says {a:?}, the second {b}");
            println!("{}", second::rows::line(&row));
            return false;
        }
        *judged.entry(format!("{b} ({kind})")).or_insert(0u64) += 1;
        let times = if a == Judged::Keeps { 3 } else { 1 };
        for _ in 0..times {
            let s = Setting::draw(&mut draw);
            let mut shown = vec![0; s.room];
            let mut work = vec![BEFORE; s.work];
            let there = theirs(&row, &s, &mut runner);
            if there == second::Ran::TooLong {
                *ended.entry("not compared: too long".to_string()).or_insert(0u64) += 1;
                continue;
            }
            let here = match ours(&row, &s, &mut shown, &mut work) {
                Ok(here) => here,
                Err(what) => {
                    println!("difference at row {i} of seed {seed} ({kind}): {what}");
                    println!("{}", second::rows::line(&row));
                    return false;
                }
            };
            if here != there {
                println!(
                    "difference at row {i} of seed {seed} ({kind}), {} processes, {} turns, room {}, {} work words, seed {:?}: go says {here}, the second {there}",
                    s.most, s.turns, s.room, s.work, s.seed
                );
                println!("{}", second::rows::line(&row));
                return false;
            }
            *ended.entry(word(&here)).or_insert(0u64) += 1;
        }
    }
    println!("{count} rows, the longest of {longest} words: no difference");
    for (what, times) in judged.iter().chain(ended.iter()) {
        println!("{times:>9}  {what}");
    }
    true
}
