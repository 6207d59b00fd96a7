//! Section 9: running a program that keeps.
//!
//! An interpreter of the rows as they stand; beside them only a table of where second ways begin. It runs one worker
//! until that has to wait, then the one that became ready last. A line has one place for the worker that waits at it:
//! in a program that keeps, whoever comes second wants what the first waits for. Workers and lines that are done with
//! are used again, so the memory is that of the workers that are alive.

use crate::judge::Kept;
use crate::orders::{self, Came};
use crate::reader::read;

/// What a run came to, without the numbers; `Done` and `Spent` say how many were shown.
#[derive(Clone, Copy, Debug, PartialEq, Eq)]
pub enum Ended {
    Few,
    Unread,
    Unkept,
    Crowded,
    OutFull,
    Done(usize),
    Spent(usize),
    /// Not an answer of the page: the step limit, or the limit on workers alive at once, was reached first.
    TooLong,
    /// Not an answer of the page: it cannot be, since programs that keep never jam.
    Jammed,
}

/// What a run came to, with the numbers that were shown.
#[derive(Clone, Debug, PartialEq, Eq)]
pub enum Ran {
    Few,
    Unread,
    Unkept,
    Crowded,
    OutFull,
    Done(Vec<u32>),
    Spent(Vec<u32>),
    TooLong,
    Jammed,
}

impl std::fmt::Display for Ran {
    fn fmt(&self, f: &mut std::fmt::Formatter<'_>) -> std::fmt::Result {
        let (word, shown) = match self {
            Ran::Few => return f.write_str("few"),
            Ran::Unread => return f.write_str("unread"),
            Ran::Unkept => return f.write_str("unkept"),
            Ran::Crowded => return f.write_str("crowded"),
            Ran::OutFull => return f.write_str("out full"),
            Ran::TooLong => return f.write_str("too long"),
            Ran::Jammed => return f.write_str("jammed"),
            Ran::Done(shown) => ("done", shown),
            Ran::Spent(shown) => ("spent", shown),
        };
        write!(f, "{word} {}:", shown.len())?;
        for number in shown {
            write!(f, " {number}")?;
        }
        Ok(())
    }
}

/// Runs a program: at most `most` workers, `turns` turns, `room` numbers shown; in a fixed order, or, with a seed, in
/// an order of single steps drawn from it.
pub fn go(words: &[u32], most: u32, turns: u32, room: usize, seed: Option<u64>, work_words: u64) -> Ran {
    go_limited(words, most, turns, room, seed, work_words, None)
}

/// As `go`, but gives up with `TooLong` after `steps` steps.
pub fn go_limited(
    words: &[u32],
    most: u32,
    turns: u32,
    room: usize,
    seed: Option<u64>,
    work_words: u64,
    steps: Option<u64>,
) -> Ran {
    let mut shown = Vec::new();
    let mut into = |number: u32| {
        if shown.len() < room {
            shown.push(number);
            true
        } else {
            false
        }
    };
    let program = match admit(words, most, work_words) {
        Ok(program) => program,
        Err(Ended::Few) => return Ran::Few,
        Err(Ended::Unread) => return Ran::Unread,
        Err(_) => return Ran::Unkept,
    };
    let ended = match seed {
        None => match steps {
            None => Runner::new().run::<false>(&program, most, turns, &mut into, 0),
            Some(steps) => Runner::new().run::<true>(&program, most, turns, &mut into, steps),
        },
        Some(seed) => {
            let mut full = false;
            let came = orders::run(program.program(), most, turns, seed, steps, |number| full |= !into(number));
            match came {
                Came::TooMany => Ended::Crowded,
                Came::TooLong => Ended::TooLong,
                Came::Jammed(_) => Ended::Jammed,
                _ if full => Ended::OutFull,
                Came::AllStopped => Ended::Done(0),
                Came::OutOfTurns => Ended::Spent(0),
            }
        }
    };
    match ended {
        Ended::Few => Ran::Few,
        Ended::Unread => Ran::Unread,
        Ended::Unkept => Ran::Unkept,
        Ended::Crowded => Ran::Crowded,
        Ended::OutFull => Ran::OutFull,
        Ended::Done(_) => Ran::Done(shown),
        Ended::Spent(_) => Ran::Spent(shown),
        Ended::TooLong => Ran::TooLong,
        Ended::Jammed => Ran::Jammed,
    }
}

/// The first three answers.
fn admit(words: &[u32], most: u32, work_words: u64) -> Result<Kept<'_>, Ended> {
    if work_words < 4096 + 128 * most as u64 {
        return Err(Ended::Few);
    }
    let program = read(words).ok_or(Ended::Unread)?;
    Kept::of(program).ok_or(Ended::Unkept)
}

const NONE: u32 = u32::MAX;

#[derive(Clone)]
struct Worker {
    /// What is left to do; while it waits, what is left after the wait (at an `offer`: that action).
    pc: u32,
    turns: u32,
    /// How many conversations it has had, those handed on counted.
    count: u32,
    /// While it waits: the number that it gives, the variable into which it takes, or the way that it chooses.
    held: u32,
    /// The lines; `NONE` where handed on.
    line: [u32; 16],
    vars: [u32; 16],
}

const FRESH: Worker = Worker { pc: 0, turns: 0, count: 0, held: 0, line: [NONE; 16], vars: [0; 16] };

#[derive(Clone)]
struct Line {
    /// The worker that waits at this line, or `NONE`.
    waits: u32,
    /// How many of its ends somebody has.
    ends: u32,
}

/// The memory of a run, to be used for any number of them, one after the other.
pub struct Runner {
    workers: Vec<Worker>,
    lines: Vec<Line>,
    ready: Vec<u32>,
    free_workers: Vec<u32>,
    free_lines: Vec<u32>,
    numbers: Vec<u32>,
    /// No more workers than this may be alive at once, so that memory does not run out.
    pub alive: usize,
}

impl Default for Runner {
    fn default() -> Runner {
        Runner::new()
    }
}

impl Runner {
    pub fn new() -> Runner {
        Runner {
            workers: Vec::new(),
            lines: Vec::new(),
            ready: Vec::new(),
            free_workers: Vec::new(),
            free_lines: Vec::new(),
            numbers: Vec::new(),
            alive: 1 << 23,
        }
    }

    /// The call of section 9, in a fixed order, with `shown` as the memory for the numbers that are shown.
    pub fn go(&mut self, words: &[u32], most: u32, turns: u32, shown: &mut [u32], work_words: u64) -> Ended {
        match admit(words, most, work_words) {
            Ok(program) => self.run_into(&program, most, turns, shown, None),
            Err(ended) => ended,
        }
    }

    /// Runs a program that keeps.
    pub fn run_into(
        &mut self,
        program: &Kept,
        most: u32,
        turns: u32,
        shown: &mut [u32],
        steps: Option<u64>,
    ) -> Ended {
        // Not straight into `shown`: that stays as it was if the run turns out to be crowded later.
        let mut numbers = std::mem::take(&mut self.numbers);
        numbers.clear();
        let mut into = |number: u32| {
            let room = numbers.len() < shown.len();
            if room {
                numbers.push(number);
            }
            room
        };
        let ended = match steps {
            None => self.run::<false>(program, most, turns, &mut into, 0),
            Some(steps) => self.run::<true>(program, most, turns, &mut into, steps),
        };
        let k = numbers.len();
        let ended = match ended {
            Ended::Done(_) => Ended::Done(k),
            Ended::Spent(_) => Ended::Spent(k),
            ended => ended,
        };
        if let Ended::Done(_) | Ended::Spent(_) = ended {
            shown[..k].copy_from_slice(&numbers);
        }
        self.numbers = numbers;
        ended
    }

    /// `into` answers false if there is no room. What the reader and the judge looked at is not looked at again.
    fn run<const LIMITED: bool>(
        &mut self,
        program: &Kept,
        most: u32,
        turns: u32,
        into: &mut dyn FnMut(u32) -> bool,
        mut steps: u64,
    ) -> Ended {
        if most == 0 {
            return Ended::Crowded;
        }
        let program = program.program();
        let words = Words(program.words);
        let second = &program.second[..];
        let Runner { workers, lines, ready, free_workers, free_lines, alive, .. } = self;
        workers.clear();
        lines.clear();
        ready.clear();
        free_workers.clear();
        free_lines.clear();
        let mut made = 1u32;
        let mut full = false;
        let mut spent = false;
        let mut aside = [0u32; 16];
        workers.push(Worker { pc: program.processes[0].body as u32, turns, ..FRESH });
        ready.push(0);
        while let Some(w) = ready.pop() {
            let w = w as usize;
            let mut pc = workers[w].pc as usize;
            loop {
                if LIMITED {
                    if steps == 0 {
                        return Ended::TooLong;
                    }
                    steps -= 1;
                }
                let me = &mut workers[w];
                match words.at(pc) {
                    // stop
                    0 => {
                        leave(me, lines, free_lines);
                        free_workers.push(w as u32);
                        break;
                    }
                    // give c e
                    1 => {
                        let line = &mut lines[me.line[low(words.at(pc + 1))] as usize];
                        let (number, after) = value(words, pc + 2, &me.vars);
                        pc = after;
                        let other = line.waits;
                        if other == NONE {
                            line.waits = w as u32;
                            me.held = number;
                            me.pc = pc as u32;
                            break;
                        }
                        line.waits = NONE;
                        let it = &mut workers[other as usize];
                        it.vars[low(it.held)] = number;
                        ready.push(other);
                    }
                    // take c x
                    2 => {
                        let line = &mut lines[me.line[low(words.at(pc + 1))] as usize];
                        let x = words.at(pc + 2);
                        pc += 3;
                        let other = line.waits;
                        if other == NONE {
                            line.waits = w as u32;
                            me.held = x;
                            me.pc = pc as u32;
                            break;
                        }
                        line.waits = NONE;
                        let number = workers[other as usize].held;
                        workers[w].vars[low(x)] = number;
                        ready.push(other);
                    }
                    // choose c k
                    3 => {
                        let line = &mut lines[me.line[low(words.at(pc + 1))] as usize];
                        let k = words.at(pc + 2);
                        pc += 3;
                        let other = line.waits;
                        if other == NONE {
                            line.waits = w as u32;
                            me.held = k;
                            me.pc = pc as u32;
                            break;
                        }
                        line.waits = NONE;
                        let it = &mut workers[other as usize];
                        it.pc = if k == 0 { it.pc + 2 } else { second[it.pc as usize] as u32 };
                        ready.push(other);
                    }
                    // offer c s t
                    4 => {
                        let line = &mut lines[me.line[low(words.at(pc + 1))] as usize];
                        let other = line.waits;
                        if other == NONE {
                            line.waits = w as u32;
                            me.pc = pc as u32;
                            break;
                        }
                        line.waits = NONE;
                        let k = workers[other as usize].held;
                        pc = if k == 0 { pc + 2 } else { second[pc] as usize };
                        ready.push(other);
                    }
                    // set x e
                    5 => {
                        let (number, after) = value(words, pc + 2, &me.vars);
                        me.vars[low(words.at(pc + 1))] = number;
                        pc = after;
                    }
                    // if e s t
                    6 => {
                        let (number, after) = value(words, pc + 1, &me.vars);
                        pc = if number != 0 { after } else { second[pc] as usize };
                    }
                    // show e
                    7 => {
                        let (number, after) = value(words, pc + 1, &me.vars);
                        full |= !into(number);
                        pc = after;
                    }
                    // start f cs es
                    8 => {
                        if me.turns == 0 {
                            spent = true;
                            leave(me, lines, free_lines);
                            free_workers.push(w as u32);
                            break;
                        }
                        if made == most {
                            return Ended::Crowded;
                        }
                        made += 1;
                        let new = match free_workers.pop() {
                            Some(new) => new,
                            None => {
                                if workers.len() >= *alive {
                                    return Ended::TooLong;
                                }
                                workers.push(FRESH);
                                workers.len() as u32 - 1
                            }
                        };
                        let line = match free_lines.pop() {
                            Some(line) => {
                                lines[line as usize] = Line { waits: NONE, ends: 2 };
                                line
                            }
                            None => {
                                if lines.len() >= NONE as usize {
                                    return Ended::TooLong;
                                }
                                lines.push(Line { waits: NONE, ends: 2 });
                                lines.len() as u32 - 1
                            }
                        };
                        let process = &program.processes[words.at(pc + 1) as usize];
                        let (me, it) = two(workers, w, new as usize);
                        me.turns -= 1;
                        it.turns = me.turns;
                        it.pc = process.body as u32;
                        it.line[0] = line;
                        let cs = words.at(pc + 2) as usize;
                        for i in 0..cs {
                            let c = low(words.at(pc + 3 + i));
                            it.line[(i + 1) & 15] = me.line[c];
                            me.line[c] = NONE;
                        }
                        it.count = cs as u32 + 1;
                        let es = words.at(pc + 3 + cs) as usize;
                        pc += 4 + cs;
                        for i in 0..es {
                            let (number, after) = value(words, pc, &me.vars);
                            it.vars[i & 15] = number;
                            pc = after;
                        }
                        for i in es..process.variables {
                            it.vars[i & 15] = 0;
                        }
                        me.line[low(me.count)] = line;
                        me.count += 1;
                        ready.push(new);
                    }
                    // become f cs es
                    _ => {
                        if me.turns == 0 {
                            spent = true;
                            leave(me, lines, free_lines);
                            free_workers.push(w as u32);
                            break;
                        }
                        me.turns -= 1;
                        let process = &program.processes[words.at(pc + 1) as usize];
                        let cs = words.at(pc + 2) as usize;
                        // One word at a time, both ways: copies of several at once would have to wait for the stores.
                        for i in 0..cs {
                            let c = low(words.at(pc + 3 + i));
                            aside[i & 15] = me.line[c];
                            me.line[c] = NONE;
                        }
                        leave(me, lines, free_lines);
                        for i in 0..cs {
                            me.line[i & 15] = aside[i & 15];
                        }
                        me.count = cs as u32;
                        let es = words.at(pc + 3 + cs) as usize;
                        pc += 4 + cs;
                        for i in 0..es {
                            let (number, after) = value(words, pc, &me.vars);
                            aside[i & 15] = number;
                            pc = after;
                        }
                        for i in 0..es {
                            me.vars[i & 15] = aside[i & 15];
                        }
                        for i in es..process.variables {
                            me.vars[i & 15] = 0;
                        }
                        pc = process.body;
                    }
                }
            }
        }
        if full {
            Ended::OutFull
        } else if spent {
            Ended::Spent(0)
        } else if free_workers.len() == workers.len() {
            Ended::Done(0)
        } else {
            Ended::Jammed
        }
    }
}

/// The words of a program that was read. An action or expression that begins among them ends among them, and after
/// each action that something follows that follows among them; so wherever the runner looks there is a word.
#[derive(Clone, Copy)]
struct Words<'a>(&'a [u32]);

impl Words<'_> {
    #[inline(always)]
    fn at(self, i: usize) -> u32 {
        debug_assert!(i < self.0.len());
        // SAFETY: as above; only `read` makes programs.
        unsafe { *self.0.get_unchecked(i) }
    }
}

#[inline(always)]
fn low(n: u32) -> usize {
    (n & 15) as usize
}

/// The worker has done with its conversations: it lets go of the ends that it has.
#[inline(always)]
fn leave(me: &Worker, lines: &mut [Line], free_lines: &mut Vec<u32>) {
    for i in 0..me.count as usize {
        let line = me.line[i & 15];
        if line != NONE {
            let ends = &mut lines[line as usize].ends;
            *ends -= 1;
            if *ends == 0 {
                free_lines.push(line);
            }
        }
    }
}

/// Two different workers.
#[inline(always)]
fn two(workers: &mut [Worker], a: usize, b: usize) -> (&mut Worker, &mut Worker) {
    if a < b {
        let (left, right) = workers.split_at_mut(b);
        (&mut left[a], &mut right[0])
    } else {
        let (left, right) = workers.split_at_mut(a);
        (&mut right[0], &mut left[b])
    }
}

/// The value of the expression that begins at word `at`, and where it ends.
#[inline(always)]
fn value(words: Words, at: usize, vars: &[u32; 16]) -> (u32, usize) {
    match words.at(at) {
        0 => (words.at(at + 1), at + 2),
        1 => (vars[low(words.at(at + 1))], at + 2),
        op => operation(op, words, at + 1, vars),
    }
}

fn operation(op: u32, words: Words, at: usize, vars: &[u32; 16]) -> (u32, usize) {
    let (a, at) = value(words, at, vars);
    let (b, at) = value(words, at, vars);
    let number = match op {
        2 => a.wrapping_add(b),
        3 => a.wrapping_sub(b),
        4 => a.wrapping_mul(b),
        _ => (a < b) as u32,
    };
    (number, at)
}
