//! The page once more, as plainly as it can be put: the rows are read into a tree without any limit, the limits are
//! measured on the tree by the tables of section 7, the walk goes over the tree, and a run looks for all possible steps
//! before each step. Compared with the library on generated rows.

use second::generate::row;
use second::orders::{run, Came};
use second::rows::{Act, Body, End, Exp, Proc, Prog, Pt};
use second::{go_limited, judge, read, Answer, Draw, Ran};

type In<'a> = std::slice::Iter<'a, u32>;

fn word(from: &mut In) -> Option<u32> {
    from.next().copied()
}

fn list(from: &mut In) -> Option<Vec<u32>> {
    let count = word(from)? as usize;
    if count > from.len() {
        return None;
    }
    (0..count).map(|_| word(from)).collect()
}

fn exp(from: &mut In) -> Option<Exp> {
    Some(match word(from)? {
        0 => Exp::Num(word(from)?),
        1 => Exp::Var(word(from)?),
        op @ 2..=5 => {
            let a = exp(from)?;
            Exp::Op(op, Box::new(a), Box::new(exp(from)?))
        }
        _ => return None,
    })
}

fn exp_list(from: &mut In) -> Option<Vec<Exp>> {
    let count = word(from)? as usize;
    if count > from.len() {
        return None;
    }
    (0..count).map(|_| exp(from)).collect()
}

fn body(from: &mut In) -> Option<Body> {
    let mut acts = Vec::new();
    loop {
        let end = match word(from)? {
            0 => End::Stop,
            1 => {
                acts.push(Act::Give(word(from)?, exp(from)?));
                continue;
            }
            2 => {
                acts.push(Act::Take(word(from)?, word(from)?));
                continue;
            }
            3 => {
                acts.push(Act::Choose(word(from)?, word(from)?));
                continue;
            }
            4 => {
                let c = word(from)?;
                let s = body(from)?;
                End::Offer(c, Box::new(s), Box::new(body(from)?))
            }
            5 => {
                acts.push(Act::Set(word(from)?, exp(from)?));
                continue;
            }
            6 => {
                let e = exp(from)?;
                let s = body(from)?;
                End::If(e, Box::new(s), Box::new(body(from)?))
            }
            7 => {
                acts.push(Act::Show(exp(from)?));
                continue;
            }
            8 => {
                acts.push(Act::Start(word(from)?, list(from)?, exp_list(from)?));
                continue;
            }
            9 => End::Become(word(from)?, list(from)?, exp_list(from)?),
            _ => return None,
        };
        return Some(Body { acts, end });
    }
}

fn program(row: &[u32]) -> Option<Prog> {
    let from = &mut row.iter();
    let count = word(from)? as usize;
    if count > from.len() {
        return None;
    }
    let mut prog = Prog::default();
    for _ in 0..count {
        prog.points.push(match word(from)? {
            0 => Pt { kind: 0, n: 0, m: 0 },
            kind @ 1..=2 => Pt { kind, n: word(from)?, m: 0 },
            kind @ 3..=4 => Pt { kind, n: word(from)?, m: word(from)? },
            _ => return None,
        });
    }
    for _ in 0..count {
        prog.others.push(word(from)?);
    }
    while from.len() > 0 {
        prog.procs.push(Proc { points: list(from)?, handed: word(from)?, vars: word(from)?, body: body(from)? });
    }
    Some(prog)
}

fn deep_exp(e: &Exp) -> usize {
    match e {
        Exp::Num(_) | Exp::Var(_) => 1,
        Exp::Op(_, a, b) => 1 + deep_exp(a).max(deep_exp(b)),
    }
}

fn deep_all(es: &[Exp]) -> usize {
    es.iter().map(deep_exp).max().unwrap_or(0)
}

fn deep(b: &Body) -> usize {
    let end = match &b.end {
        End::Stop => 0,
        End::Become(_, _, es) => deep_all(es),
        End::Offer(_, s, t) => 1 + deep(s).max(deep(t)),
        End::If(e, s, t) => deep_exp(e).max(1 + deep(s).max(deep(t))),
    };
    let of = |act: &Act| match act {
        Act::Give(_, e) | Act::Set(_, e) | Act::Show(e) => deep_exp(e),
        Act::Start(_, _, es) => deep_all(es),
        Act::Take(..) | Act::Choose(..) => 0,
    };
    b.acts.iter().map(of).max().unwrap_or(0).max(end)
}

fn new(b: &Body) -> usize {
    let end = match &b.end {
        End::Stop | End::Become(..) => 0,
        End::Offer(_, s, t) | End::If(_, s, t) => new(s).max(new(t)),
    };
    b.acts.iter().filter(|a| matches!(a, Act::Start(..))).count() + end
}

fn within(row: &[u32], prog: &Prog) -> bool {
    row.len() <= 16_384
        && prog.points.len() <= 256
        && prog.procs.len() <= 64
        && prog.procs.iter().all(|p| {
            p.points.len() + new(&p.body) <= 16 && p.vars <= 16 && p.handed <= p.vars && deep(&p.body) <= 256
        })
}

fn fits(prog: &Prog, i: usize) -> bool {
    let there = |i: u32| (i as usize) < prog.points.len();
    let each = |i: u32, j: u32| {
        there(i) && there(j) && prog.others[i as usize] == j && prog.others[j as usize] == i
    };
    let j = prog.others[i];
    if !each(i as u32, j) {
        return false;
    }
    let (a, b) = (prog.points[i], prog.points[j as usize]);
    match (a.kind, b.kind) {
        (0, 0) => true,
        (1, 2) | (2, 1) => each(a.n, b.n),
        (3, 4) | (4, 3) => each(a.n, b.n) && each(a.m, b.m),
        _ => false,
    }
}

fn variables(e: &Exp, vars: u32) -> bool {
    match e {
        Exp::Num(_) => true,
        Exp::Var(x) => *x < vars,
        Exp::Op(_, a, b) => variables(a, vars) && variables(b, vars),
    }
}

struct Walk<'a> {
    prog: &'a Prog,
    me: usize,
}

type At = Vec<Option<u32>>;

impl Walk<'_> {
    fn vars(&self) -> u32 {
        self.prog.procs[self.me].vars
    }

    fn point(&self, at: &At, c: u32, kind: u32) -> Option<Pt> {
        let p = (*at.get(c as usize)?)?;
        self.prog.points.get(p as usize).copied().filter(|p| p.kind == kind)
    }

    fn over(&self, at: &At) -> bool {
        at.iter().flatten().all(|&p| self.prog.points.get(p as usize).is_some_and(|p| p.kind == 0))
    }

    fn hand(&self, at: &mut At, cs: &[u32], wanted: &[u32]) -> Option<()> {
        if cs.len() != wanted.len() {
            return None;
        }
        for (c, want) in cs.iter().zip(wanted) {
            let conversation = at.get_mut(*c as usize)?;
            if *conversation != Some(*want) {
                return None;
            }
            *conversation = None;
        }
        Some(())
    }

    fn numbers(&self, f: &Proc, es: &[Exp]) -> bool {
        es.len() == f.handed as usize && es.iter().all(|e| variables(e, self.vars()))
    }

    fn keeps(&self, b: &Body, mut at: At) -> Option<()> {
        let vars = self.vars();
        let yes = |yes: bool| yes.then_some(());
        for act in &b.acts {
            match act {
                Act::Give(c, e) => {
                    yes(variables(e, vars))?;
                    at[*c as usize] = Some(self.point(&at, *c, 1)?.n);
                }
                Act::Take(c, x) => {
                    yes(*x < vars)?;
                    at[*c as usize] = Some(self.point(&at, *c, 2)?.n);
                }
                Act::Choose(c, k) => {
                    yes(*k < 2)?;
                    let p = self.point(&at, *c, 3)?;
                    at[*c as usize] = Some(if *k == 0 { p.n } else { p.m });
                }
                Act::Set(x, e) => yes(*x < vars && variables(e, vars))?,
                Act::Show(e) => yes(self.me == 0 && variables(e, vars))?,
                Act::Start(f, cs, es) => {
                    let f = self.prog.procs.get(*f as usize)?;
                    yes(!f.points.is_empty() && self.numbers(f, es))?;
                    self.hand(&mut at, cs, &f.points[1..])?;
                    at.push(Some(*self.prog.others.get(f.points[0] as usize)?));
                }
            }
        }
        match &b.end {
            End::Stop => yes(self.over(&at)),
            End::Become(f, cs, es) => {
                let proc = self.prog.procs.get(*f as usize)?;
                yes(self.numbers(proc, es) && (self.me == 0) == (*f == 0))?;
                self.hand(&mut at, cs, &proc.points)?;
                yes(self.over(&at))
            }
            End::Offer(c, s, t) => {
                let p = self.point(&at, *c, 4)?;
                let mut to = at.clone();
                to[*c as usize] = Some(p.n);
                self.keeps(s, to)?;
                at[*c as usize] = Some(p.m);
                self.keeps(t, at)
            }
            End::If(e, s, t) => {
                yes(variables(e, vars))?;
                self.keeps(s, at.clone())?;
                self.keeps(t, at)
            }
        }
    }
}

fn plain(row: &[u32]) -> (Answer, Option<Prog>) {
    let Some(prog) = program(row).filter(|p| within(row, p)) else { return (Answer::NoProgram, None) };
    let first = prog.procs.first().is_some_and(|p| p.points.is_empty() && p.handed == 0);
    let keeps = first
        && (0..prog.points.len()).all(|i| fits(&prog, i))
        && (0..prog.procs.len()).all(|me| {
            let at = prog.procs[me].points.iter().map(|&p| Some(p)).collect();
            Walk { prog: &prog, me }.keeps(&prog.procs[me].body, at).is_some()
        });
    (if keeps { Answer::Keeps } else { Answer::Careless }, Some(prog))
}

// Running.

#[derive(Clone, Copy, PartialEq, Debug)]
enum Stands {
    Running,
    Stopped,
    Out,
}

#[derive(Clone)]
struct Worker<'p> {
    body: &'p Body,
    done: usize,
    vars: Vec<u32>,
    ends: Vec<Option<(usize, bool)>>,
    turns: u32,
    stands: Stands,
}

fn value(e: &Exp, vars: &[u32]) -> u32 {
    match e {
        Exp::Num(n) => *n,
        Exp::Var(x) => vars.get(*x as usize).copied().unwrap_or(0),
        Exp::Op(op, a, b) => {
            let (a, b) = (value(a, vars), value(b, vars));
            match op {
                2 => ((a as u64 + b as u64) % (1 << 32)) as u32,
                3 => (((1u64 << 32) + a as u64 - b as u64) % (1 << 32)) as u32,
                4 => ((a as u64 * b as u64) % (1 << 32)) as u32,
                _ => (a < b) as u32,
            }
        }
    }
}

#[derive(Clone, Debug, PartialEq, PartialOrd, Eq, Ord)]
enum Result {
    Stopped,
    Spent,
    Many,
    /// How many are left (their numbers depend on the order of the starts).
    Jammed(usize),
    Long,
}

/// All possible steps: one worker, or two.
fn possible(prog: &Prog, workers: &[Worker]) -> Vec<(usize, Option<usize>)> {
    let mut steps = Vec::new();
    let end = |w: &Worker, c: u32| w.ends.get(c as usize).copied().flatten();
    for (i, w) in workers.iter().enumerate().filter(|(_, w)| w.stands == Stands::Running) {
        let (from, choice) = match w.body.acts.get(w.done) {
            Some(Act::Give(c, _)) => (*c, false),
            Some(Act::Choose(c, _)) => (*c, true),
            Some(Act::Take(..)) => continue,
            Some(Act::Start(f, ..)) => {
                if w.turns == 0 || (*f as usize) < prog.procs.len() {
                    steps.push((i, None));
                }
                continue;
            }
            Some(_) => {
                steps.push((i, None));
                continue;
            }
            None => {
                match &w.body.end {
                    End::Offer(..) => {}
                    End::Become(f, ..) if w.turns > 0 && (*f as usize) >= prog.procs.len() => {}
                    _ => steps.push((i, None)),
                }
                continue;
            }
        };
        let Some((line, side)) = end(w, from) else { continue };
        for (j, v) in workers.iter().enumerate().filter(|(j, v)| *j != i && v.stands == Stands::Running) {
            let to = match (v.body.acts.get(v.done), &v.body.end) {
                (Some(Act::Take(d, _)), _) if !choice => *d,
                (None, End::Offer(d, ..)) if choice => *d,
                _ => continue,
            };
            if end(v, to) == Some((line, !side)) {
                steps.push((i, Some(j)));
            }
        }
    }
    steps
}

fn slow(prog: &Prog, most: usize, turns: u32, draw: &mut Draw, mut limit: usize) -> (Result, Vec<u32>) {
    let mut shown = Vec::new();
    if most == 0 {
        return (Result::Many, shown);
    }
    let Some(first) = prog.procs.first() else { return (Result::Jammed(1), shown) };
    let mut lines = 0;
    let mut workers = vec![Worker {
        body: &first.body,
        done: 0,
        vars: vec![0; first.vars as usize],
        ends: vec![],
        turns,
        stands: Stands::Running,
    }];
    loop {
        let steps = possible(prog, &workers);
        if steps.is_empty() {
            break;
        }
        if limit == 0 {
            return (Result::Long, shown);
        }
        limit -= 1;
        let (i, with) = steps[draw.below(steps.len())];
        let me = workers[i].clone();
        let handed = |es: &[Exp], f: &Proc| {
            let mut vars: Vec<u32> = es.iter().map(|e| value(e, &me.vars)).collect();
            while vars.len() < f.vars as usize {
                vars.push(0);
            }
            vars
        };
        let ends = |cs: &[u32]| cs.iter().map(|&c| me.ends.get(c as usize).copied().flatten()).collect::<Vec<_>>();
        if let Some(j) = with {
            workers[i].done += 1;
            match me.body.acts.get(me.done) {
                Some(Act::Give(_, e)) => {
                    let number = value(e, &me.vars);
                    let it = &mut workers[j];
                    if let Some(Act::Take(_, x)) = it.body.acts.get(it.done) {
                        if (*x as usize) < it.vars.len() {
                            it.vars[*x as usize] = number;
                        }
                    }
                    it.done += 1;
                }
                Some(Act::Choose(_, k)) => {
                    let it = &mut workers[j];
                    if let End::Offer(_, s, t) = &it.body.end {
                        it.body = if *k == 0 { s } else { t };
                        it.done = 0;
                    }
                }
                _ => unreachable!(),
            }
            continue;
        }
        match me.body.acts.get(me.done) {
            Some(Act::Set(x, e)) => {
                if (*x as usize) < me.vars.len() {
                    workers[i].vars[*x as usize] = value(e, &me.vars);
                }
                workers[i].done += 1;
            }
            Some(Act::Show(e)) => {
                if i == 0 {
                    shown.push(value(e, &me.vars));
                }
                workers[i].done += 1;
            }
            Some(Act::Start(..)) if me.turns == 0 => workers[i].stands = Stands::Out,
            Some(Act::Start(f, cs, es)) => {
                if workers.len() == most {
                    return (Result::Many, shown);
                }
                let f = &prog.procs[*f as usize];
                let mut all = vec![Some((lines, true))];
                all.extend(ends(cs));
                for &c in cs {
                    if let Some(end) = workers[i].ends.get_mut(c as usize) {
                        *end = None;
                    }
                }
                workers[i].ends.push(Some((lines, false)));
                lines += 1;
                workers[i].turns -= 1;
                workers[i].done += 1;
                workers.push(Worker {
                    body: &f.body,
                    done: 0,
                    vars: handed(es, f),
                    ends: all,
                    turns: me.turns - 1,
                    stands: Stands::Running,
                });
            }
            Some(_) => unreachable!(),
            None => match &me.body.end {
                End::Stop => workers[i].stands = Stands::Stopped,
                End::If(e, s, t) => {
                    workers[i].body = if value(e, &me.vars) != 0 { s } else { t };
                    workers[i].done = 0;
                }
                End::Become(..) if me.turns == 0 => workers[i].stands = Stands::Out,
                End::Become(f, cs, es) => {
                    let f = &prog.procs[*f as usize];
                    workers[i] = Worker {
                        body: &f.body,
                        done: 0,
                        vars: handed(es, f),
                        ends: ends(cs),
                        turns: me.turns - 1,
                        stands: Stands::Running,
                    };
                }
                End::Offer(..) => unreachable!(),
            },
        }
    }
    let left = workers.iter().filter(|w| w.stands == Stands::Running).count();
    if workers.iter().any(|w| w.stands == Stands::Out) {
        (Result::Spent, shown)
    } else if left == 0 {
        (Result::Stopped, shown)
    } else {
        (Result::Jammed(left), shown)
    }
}

fn drawn(row: &[u32], most: u32, turns: u32, seed: u64, limit: u64) -> (Result, Vec<u32>) {
    let program = read(row).expect("a program");
    let mut shown = Vec::new();
    let came = run(&program, most, turns, seed, Some(limit), |n| shown.push(n));
    let result = match came {
        Came::AllStopped => Result::Stopped,
        Came::OutOfTurns => Result::Spent,
        Came::TooMany => Result::Many,
        Came::TooLong => Result::Long,
        Came::Jammed(left) => Result::Jammed(left.len()),
    };
    (result, shown)
}

/// How many rows: `SECOND_ROWS` in the environment, or a few.
fn rows() -> usize {
    std::env::var("SECOND_ROWS").ok().and_then(|n| n.parse().ok()).unwrap_or(3000)
}

fn seed() -> u64 {
    std::env::var("SECOND_SEED").ok().and_then(|n| n.parse().ok()).unwrap_or(77)
}

fn compare() {
    let mut draw = Draw(seed());
    for _ in 0..rows() {
        let (kind, row) = row(&mut draw);
        let text = || format!("{kind}: {}", second::rows::line(&row));
        let (answer, prog) = plain(&row);
        assert_eq!(judge(&row), answer, "{}", text());
        let Some(prog) = prog else { continue };
        let limit = 3000;
        let (most, turns) = (1 + draw.below(40), draw.below(12) as u32);
        if answer == Answer::Keeps {
            let (result, shown) = slow(&prog, most, turns, &mut draw, limit);
            let ran = go_limited(&row, most as u32, turns, usize::MAX, None, u64::MAX, Some(1 << 20));
            match result {
                Result::Stopped => assert_eq!(ran, Ran::Done(shown), "{}", text()),
                Result::Spent => assert_eq!(ran, Ran::Spent(shown), "{}", text()),
                Result::Many => assert_eq!(ran, Ran::Crowded, "{}", text()),
                Result::Long => {}
                Result::Jammed(_) => panic!("jammed: {}", text()),
            }
            continue;
        }
        // Careless: where the order decides, each side's results must be among the other's, in the end.
        let sets = |count: u64, draw: &mut Draw| {
            let mut ours: Vec<_> = (0..count).map(|s| drawn(&row, most as u32, turns, s, limit as u64)).collect();
            let mut theirs: Vec<_> = (0..count).map(|_| slow(&prog, most, turns, draw, limit)).collect();
            for set in [&mut ours, &mut theirs] {
                set.sort();
                set.dedup();
            }
            (ours, theirs)
        };
        let (mut ours, mut theirs) = sets(6, &mut draw);
        if ours.iter().chain(&theirs).any(|r| matches!(r.0, Result::Long | Result::Many)) {
            // When one of these comes the run is cut off, wherever the others are.
            continue;
        }
        if ours != theirs {
            (ours, theirs) = sets(3000, &mut draw);
        }
        let common = ours.iter().filter(|o| theirs.contains(o)).count();
        // Some results are rare.
        let many = ours.len().max(theirs.len());
        assert!(ours == theirs || (many > 4 && common > many / 2), "{}\n{ours:?}\n{theirs:?}", text());
    }
}

#[test]
fn the_library_agrees() {
    // The tree is as deep as the words: a stack of its own.
    std::thread::Builder::new().stack_size(1 << 28).spawn(compare).unwrap().join().unwrap();
}

/// All rows of `long` words below `below`, after `first`.
fn all_rows(first: &[u32], long: usize, below: u32) -> [usize; 3] {
    let mut row = first.to_vec();
    row.resize(first.len() + long, 0);
    let mut counts = [0; 3];
    loop {
        let (answer, _) = plain(&row);
        assert_eq!(judge(&row), answer, "{row:?}");
        counts[answer as usize] += 1;
        let mut i = first.len();
        while i < row.len() {
            row[i] += 1;
            if row[i] < below {
                break;
            }
            row[i] = 0;
            i += 1;
        }
        if i == row.len() {
            return counts;
        }
    }
}

#[test]
fn all_short_rows() {
    let more = rows() > 10_000;
    for long in 0..=5 {
        all_rows(&[], long, 11);
    }
    // One process and no points; two; two with a point that is over; and a line along which a number is given.
    for first in [
        &[0, 0, 0, 1][..],
        &[0, 0, 0, 0, 0, 0, 1, 1],
        &[1, 0, 0, 0, 0, 0],
        &[1, 0, 0, 0, 0, 0, 8, 1, 0, 0, 0, 1],
        &[3, 1, 1, 0, 2, 1, 2, 1, 0, 0, 0, 1, 8, 1, 0, 0],
        &[3, 1, 1, 0, 2, 1, 2, 1, 0, 0, 0, 1, 8, 1, 0, 0, 2, 0, 0, 0, 1],
    ] {
        for long in 0..=if more { 7 } else { 5 } {
            all_rows(first, long, 10);
        }
    }
}
