//! Section 5, for every program that can be read, kept or not: one step at a time, in an order drawn from a seed.
//!
//! What can take the next step is in one list: workers that can step alone, and *meetings*, which are a line together
//! with one of four kinds (who is at which end, and whether one gives and one takes, or one chooses and one offers). A
//! meeting is in the list as long as somebody waits for it on both ends. In careless programs one end may be had by
//! several workers (it is handed on twice, then one of the two is handed on), so somebody may be several.

use crate::reader::Program;
use crate::Draw;

/// What a run came to.
#[derive(Clone, Debug, PartialEq, Eq)]
pub enum Came {
    AllStopped,
    OutOfTurns,
    TooMany,
    /// The step limit was reached, or the memory for it.
    TooLong,
    Jammed(Vec<Left>),
}

/// A worker that is left in a jam.
#[derive(Clone, Debug, PartialEq, Eq)]
pub struct Left {
    pub worker: usize,
    /// The process that it is.
    pub process: usize,
    pub waits: Waits,
}

#[derive(Clone, Debug, PartialEq, Eq)]
pub enum Waits {
    /// In conversation `conversation`, along `line` (`None`: that conversation is not there, or was handed on); the other
    /// end of which is had by the workers `others`, each with whether it has stopped.
    Talk { what: Talk, conversation: u32, line: Option<usize>, others: Vec<(usize, bool)> },
    /// For a process that is not there.
    Start(u32),
    Become(u32),
    /// Process 0 itself is not there.
    Begin,
}

#[derive(Clone, Copy, Debug, PartialEq, Eq)]
pub enum Talk {
    Give,
    Take,
    Choose,
    Offer,
}

impl std::fmt::Display for Left {
    fn fmt(&self, f: &mut std::fmt::Formatter<'_>) -> std::fmt::Result {
        write!(f, "worker {} (process {}) waits ", self.worker, self.process)?;
        match &self.waits {
            Waits::Begin => f.write_str("to begin, which it cannot: no process 0"),
            Waits::Start(p) => write!(f, "to start process {p}, which is not there"),
            Waits::Become(p) => write!(f, "to become process {p}, which is not there"),
            Waits::Talk { what, conversation, line, others } => {
                let what = match what {
                    Talk::Give => "give",
                    Talk::Take => "take",
                    Talk::Choose => "choose",
                    Talk::Offer => "offer",
                };
                write!(f, "to {what} in conversation {conversation}, ")?;
                match line {
                    None => f.write_str("no line"),
                    Some(line) => {
                        write!(f, "line {line}, other end: ")?;
                        if others.is_empty() {
                            return f.write_str("nobody");
                        }
                        for (i, (worker, stopped)) in others.iter().enumerate() {
                            let comma = if i == 0 { "" } else { ", " };
                            let stopped = if *stopped { " (stopped)" } else { "" };
                            write!(f, "{comma}worker {worker}{stopped}")?;
                        }
                        Ok(())
                    }
                }
            }
        }
    }
}

/// No end of a line. An end is twice the number of its line, and one more for the started worker's.
const NO_END: u32 = u32::MAX;

#[derive(Clone, Copy, PartialEq, Eq)]
enum Stands {
    Running,
    Stopped,
    OutOfTurns,
}

struct Worker {
    process: u32,
    pc: u32,
    turns: u32,
    stands: Stands,
    ends: Vec<u32>,
    vars: Vec<u32>,
}

/// Those that wait at a line for one kind of meeting.
#[derive(Clone, Default)]
struct Meeting {
    /// Who gives or chooses.
    from: Vec<u32>,
    /// Who takes or offers.
    to: Vec<u32>,
}

/// The four kinds of a line: give from end 0, give from end 1, choose from end 0, choose from end 1.
type Line = [Meeting; 4];

/// In the list of what can step next, a worker alone; otherwise line times four plus kind.
const ALONE: u64 = 1 << 63;

/// Numbers that the variables and conversations of all workers may come to.
const MOST_CELLS: usize = 1 << 26;
/// Of the workers that have one end, so many are named.
const MOST_NAMED: usize = 16;
/// Workers of a run.
const MOST_WORKERS: usize = 1 << 21;

struct Run<'a, 'w> {
    program: &'a Program<'w>,
    workers: Vec<Worker>,
    lines: Vec<Line>,
    next: Vec<u64>,
    cells: usize,
}

/// Runs a program with at most `most` workers and `turns` turns, in an order drawn from `seed`.
pub fn run(
    program: &Program,
    most: u32,
    turns: u32,
    seed: u64,
    steps: Option<u64>,
    mut show: impl FnMut(u32),
) -> Came {
    if most == 0 {
        return Came::TooMany;
    }
    let Some(first) = program.processes.first() else {
        return Came::Jammed(vec![Left { worker: 0, process: 0, waits: Waits::Begin }]);
    };
    let words = program.words;
    let mut draw = Draw(seed);
    let mut steps = steps.unwrap_or(u64::MAX);
    let mut run = Run { program, workers: Vec::new(), lines: Vec::new(), next: Vec::new(), cells: first.variables };
    run.workers.push(Worker {
        process: 0,
        pc: first.body as u32,
        turns,
        stands: Stands::Running,
        ends: Vec::new(),
        vars: vec![0; first.variables],
    });
    run.settle(0);
    while !run.next.is_empty() {
        if steps == 0 {
            return Came::TooLong;
        }
        steps -= 1;
        let drawn = draw.below(run.next.len());
        let it = run.next.swap_remove(drawn);
        if it & ALONE == 0 {
            run.meet(it, &mut draw);
            continue;
        }
        let w = (it & !ALONE) as usize;
        let me = &mut run.workers[w];
        let pc = me.pc as usize;
        match words[pc] {
            0 => {
                me.stands = Stands::Stopped;
                run.cells -= me.vars.len();
                me.vars = Vec::new();
                continue;
            }
            5 => {
                let (number, after) = value(words, pc + 2, &me.vars);
                if let Some(x) = me.vars.get_mut(words[pc + 1] as usize) {
                    *x = number;
                }
                me.pc = after as u32;
            }
            6 => {
                let (number, after) = value(words, pc + 1, &me.vars);
                me.pc = if number != 0 { after as u32 } else { program.second[pc] as u32 };
            }
            7 => {
                let (number, after) = value(words, pc + 1, &me.vars);
                if w == 0 {
                    show(number);
                }
                me.pc = after as u32;
            }
            action => {
                // 8 start or 9 become, of a process that is there, or with no turn left.
                if me.turns == 0 {
                    me.stands = Stands::OutOfTurns;
                    run.cells -= me.vars.len();
                    me.vars = Vec::new();
                    continue;
                }
                let f = words[pc + 1];
                let process = &program.processes[f as usize];
                let start = action == 8;
                if start && run.workers.len() >= most as usize {
                    return Came::TooMany;
                }
                let me = &mut run.workers[w];
                me.turns -= 1;
                let turns = me.turns;
                let cs = words[pc + 2] as usize;
                let list = &words[pc + 3..pc + 3 + cs];
                let es = words[pc + 3 + cs] as usize;
                let mut vars = Vec::with_capacity(es.max(process.variables));
                let mut at = pc + 4 + cs;
                for _ in 0..es {
                    let (number, after) = value(words, at, &me.vars);
                    vars.push(number);
                    at = after;
                }
                if vars.len() < process.variables {
                    vars.resize(process.variables, 0);
                }
                let mut ends = Vec::with_capacity(cs + start as usize);
                let line = run.lines.len() as u32;
                if start {
                    ends.push(2 * line + 1);
                }
                for &c in list {
                    ends.push(me.ends.get(c as usize).copied().unwrap_or(NO_END));
                }
                run.cells += vars.len() + ends.len();
                if start {
                    for &c in list {
                        if let Some(end) = me.ends.get_mut(c as usize) {
                            *end = NO_END;
                        }
                    }
                    me.ends.push(2 * line);
                    me.pc = at as u32;
                    run.cells += 1;
                    run.lines.push(Line::default());
                    let new = run.workers.len();
                    run.workers.push(Worker {
                        process: f,
                        pc: process.body as u32,
                        turns,
                        stands: Stands::Running,
                        ends,
                        vars,
                    });
                    run.settle(new);
                } else {
                    run.cells -= me.vars.len() + me.ends.len();
                    me.ends = ends;
                    me.vars = vars;
                    me.process = f;
                    me.pc = process.body as u32;
                }
                if run.cells > MOST_CELLS || run.workers.len() > MOST_WORKERS {
                    return Came::TooLong;
                }
            }
        }
        run.settle(w);
    }
    if run.workers.iter().any(|w| w.stands == Stands::OutOfTurns) {
        Came::OutOfTurns
    } else if run.workers.iter().all(|w| w.stands == Stands::Stopped) {
        Came::AllStopped
    } else {
        Came::Jammed(run.left())
    }
}

impl Run<'_, '_> {
    /// What worker w does next: alone, or it waits.
    fn settle(&mut self, w: usize) {
        let words = self.program.words;
        let me = &self.workers[w];
        let pc = me.pc as usize;
        let action = words[pc];
        match action {
            1..=4 => {
                let end = me.ends.get(words[pc + 1] as usize).copied().unwrap_or(NO_END);
                if end == NO_END {
                    return;
                }
                let (line, side) = (end as usize / 2, end as usize % 2);
                let gives = action == 1 || action == 3;
                // The kind is named by the end from which is given or chosen.
                let from = if gives { side } else { 1 - side };
                let kind = if action <= 2 { from } else { 2 + from };
                let meeting = &mut self.lines[line][kind];
                let before = !meeting.from.is_empty() && !meeting.to.is_empty();
                if gives {
                    meeting.from.push(w as u32);
                } else {
                    meeting.to.push(w as u32);
                }
                if !before && !meeting.from.is_empty() && !meeting.to.is_empty() {
                    self.next.push(4 * line as u64 + kind as u64);
                }
            }
            8 | 9 if me.turns > 0 && words[pc + 1] as usize >= self.program.processes.len() => {}
            _ => self.next.push(ALONE | w as u64),
        }
    }

    /// Two workers step together.
    fn meet(&mut self, it: u64, draw: &mut Draw) {
        let words = self.program.words;
        let (line, kind) = (it as usize / 4, it as usize % 4);
        let meeting = &mut self.lines[line][kind];
        let (a, b) = (draw.below(meeting.from.len()), draw.below(meeting.to.len()));
        let from = meeting.from.swap_remove(a) as usize;
        let to = meeting.to.swap_remove(b) as usize;
        if !meeting.from.is_empty() && !meeting.to.is_empty() {
            self.next.push(it);
        }
        let pc = self.workers[from].pc as usize;
        let taker = self.workers[to].pc as usize;
        if kind < 2 {
            let (number, after) = value(words, pc + 2, &self.workers[from].vars);
            self.workers[from].pc = after as u32;
            let me = &mut self.workers[to];
            if let Some(x) = me.vars.get_mut(words[taker + 2] as usize) {
                *x = number;
            }
            me.pc = taker as u32 + 3;
        } else {
            let k = words[pc + 2];
            self.workers[from].pc = pc as u32 + 3;
            self.workers[to].pc = if k == 0 { taker as u32 + 2 } else { self.program.second[taker] as u32 };
        }
        self.settle(from);
        self.settle(to);
    }

    /// Who is left in a jam.
    fn left(&self) -> Vec<Left> {
        let words = self.program.words;
        let mut has: Vec<Vec<(usize, bool)>> = vec![Vec::new(); 2 * self.lines.len()];
        for (w, worker) in self.workers.iter().enumerate() {
            for &end in worker.ends.iter().filter(|&&end| end != NO_END) {
                let has = &mut has[end as usize];
                if has.len() < MOST_NAMED && has.last().map(|l| l.0) != Some(w) {
                    has.push((w, worker.stands == Stands::Stopped));
                }
            }
        }
        let mut left = Vec::new();
        for (w, worker) in self.workers.iter().enumerate().filter(|(_, w)| w.stands == Stands::Running) {
            let pc = worker.pc as usize;
            let what = words[pc + 1];
            let waits = match words[pc] {
                8 => Waits::Start(what),
                9 => Waits::Become(what),
                action => {
                    let end = worker.ends.get(what as usize).copied().unwrap_or(NO_END);
                    let (line, others) = if end == NO_END {
                        (None, Vec::new())
                    } else {
                        (Some(end as usize / 2), has[(end ^ 1) as usize].clone())
                    };
                    let talk = match action {
                        1 => Talk::Give,
                        2 => Talk::Take,
                        3 => Talk::Choose,
                        _ => Talk::Offer,
                    };
                    Waits::Talk { what: talk, conversation: what, line, others }
                }
            };
            left.push(Left { worker: w, process: worker.process as usize, waits });
        }
        left
    }
}

/// The value of the expression at word `at`, and where it ends; variables that are not there are 0.
fn value(words: &[u32], at: usize, vars: &[u32]) -> (u32, usize) {
    let op = words[at];
    match op {
        0 => (words[at + 1], at + 2),
        1 => (vars.get(words[at + 1] as usize).copied().unwrap_or(0), at + 2),
        _ => {
            let (a, at) = value(words, at + 1, vars);
            let (b, at) = value(words, at, vars);
            let number = match op {
                2 => a.wrapping_add(b),
                3 => a.wrapping_sub(b),
                4 => a.wrapping_mul(b),
                _ => (a < b) as u32,
            };
            (number, at)
        }
    }
}
