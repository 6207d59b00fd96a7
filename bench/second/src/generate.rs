//! Random rows for comparisons: programs that keep by construction, programs one mistake away from keeping, damaged rows,
//! programs written without any care, random words, and programs on both sides of every limit.

use crate::rows::{Act, Body, End, Exp, Proc, Prog, Pt};
use crate::Draw;
use std::collections::HashMap;

/// One random row, and which kind it is of.
pub fn row(draw: &mut Draw) -> (&'static str, Vec<u32>) {
    match draw.below(100) {
        0..=39 => ("keeps", keeper(draw).write()),
        40..=66 => {
            let mut prog = keeper(draw);
            mistake(draw, &mut prog);
            ("mistake", prog.write())
        }
        67..=74 => ("damaged", damaged(draw)),
        75..=83 => ("wild", wild(draw).write()),
        84..=89 => ("words", random_words(draw)),
        _ => ("limit", limit(draw)),
    }
}

// Small helpers for programs written by hand.

fn num(n: u32) -> Exp {
    Exp::Num(n)
}
fn var(x: u32) -> Exp {
    Exp::Var(x)
}
fn op(k: u32, a: Exp, b: Exp) -> Exp {
    Exp::Op(k, Box::new(a), Box::new(b))
}
fn add(a: Exp, b: Exp) -> Exp {
    op(2, a, b)
}
fn sub(a: Exp, b: Exp) -> Exp {
    op(3, a, b)
}
fn body(acts: Vec<Act>, end: End) -> Body {
    Body { acts, end }
}
fn both(s: Body, t: Body) -> (Box<Body>, Box<Body>) {
    (Box::new(s), Box::new(t))
}
fn when(e: Exp, s: Body, t: Body) -> End {
    let (s, t) = both(s, t);
    End::If(e, s, t)
}
fn offer(c: u32, s: Body, t: Body) -> End {
    let (s, t) = both(s, t);
    End::Offer(c, s, t)
}
fn pt(kind: u32, n: u32, m: u32) -> Pt {
    Pt { kind, n, m }
}
fn process(points: &[u32], handed: u32, vars: u32, body: Body) -> Proc {
    Proc { points: points.to_vec(), handed, vars, body }
}

// Programs that keep by construction.

/// A program that keeps.
pub fn keeper(draw: &mut Draw) -> Prog {
    loop {
        let prog = match draw.below(12) {
            0 => counter(draw.below(40) as u32, draw.below(1000) as u32),
            1 => tree(draw.below(7) as u32),
            2 => chain(1 + draw.below(12) as u32, draw.below(10) as u32),
            _ => Maker::make(draw),
        };
        if prog.write().len() <= crate::MOST_WORDS {
            return prog;
        }
    }
}

/// The clerk counts down from n while the till adds up: one more, or that is all.
pub fn counter(n: u32, k: u32) -> Prog {
    Prog {
        points: vec![
            pt(4, 1, 2), pt(2, 0, 0), pt(1, 3, 0), pt(0, 0, 0),
            pt(3, 5, 6), pt(1, 4, 0), pt(2, 7, 0), pt(0, 0, 0),
            // the clerk's helper, at 8 and its starter at 10
            pt(1, 9, 0), pt(0, 0, 0), pt(2, 11, 0), pt(0, 0, 0),
        ],
        others: vec![4, 5, 6, 7, 0, 1, 2, 3, 10, 11, 8, 9],
        procs: vec![
            process(&[], 0, 1, body(
                vec![
                    Act::Start(1, vec![], vec![num(k)]),
                    Act::Start(2, vec![0], vec![num(n)]),
                    Act::Take(1, 0),
                    Act::Show(var(0)),
                ],
                End::Stop,
            )),
            process(&[0], 1, 2, body(vec![], offer(
                0,
                body(vec![Act::Take(0, 1)], End::Become(1, vec![0], vec![add(var(0), var(1))])),
                body(vec![Act::Give(0, var(0))], End::Stop),
            ))),
            process(&[8, 4], 1, 2, body(vec![], when(
                var(0),
                body(
                    vec![Act::Choose(1, 0), Act::Give(1, var(0))],
                    End::Become(2, vec![0, 1], vec![sub(var(0), num(1))]),
                ),
                body(vec![Act::Choose(1, 1), Act::Take(1, 1), Act::Give(0, var(1))], End::Stop),
            ))),
        ],
    }
}

/// A tree of processes that count themselves.
pub fn tree(deep: u32) -> Prog {
    Prog {
        points: vec![pt(1, 1, 0), pt(0, 0, 0), pt(2, 1, 0)],
        others: vec![2, 1, 0],
        procs: vec![
            process(&[], 0, 1, body(
                vec![Act::Start(1, vec![], vec![num(deep)]), Act::Take(0, 0), Act::Show(var(0))],
                End::Stop,
            )),
            process(&[0], 1, 3, body(vec![], when(
                var(0),
                body(
                    vec![
                        Act::Start(1, vec![], vec![sub(var(0), num(1))]),
                        Act::Start(1, vec![], vec![sub(var(0), num(1))]),
                        Act::Take(1, 1),
                        Act::Take(2, 2),
                        Act::Give(0, add(add(var(1), var(2)), num(1))),
                    ],
                    End::Stop,
                ),
                body(vec![Act::Give(0, num(1))], End::Stop),
            ))),
        ],
    }
}

/// `long` lanes in a row, each of which starts the next; `count` numbers go down the row, each lane adding its own.
pub fn chain(long: u32, count: u32) -> Prog {
    // 0 offers 1 2 (one more, the end), 1 takes 3, 3 gives 0 (the answer); 4 chooses 5 6, 5 gives 7, 7 takes 4; 2, 6 over
    Prog {
        points: vec![
            pt(4, 1, 2), pt(2, 3, 0), pt(0, 0, 0), pt(1, 0, 0),
            pt(3, 5, 6), pt(1, 7, 0), pt(0, 0, 0), pt(2, 4, 0),
        ],
        others: vec![4, 5, 6, 7, 0, 1, 2, 3],
        procs: vec![
            process(&[], 0, 1, body(
                {
                    let mut acts = vec![Act::Start(1, vec![], vec![num(long)])];
                    for i in 0..count {
                        acts.push(Act::Choose(0, 0));
                        acts.push(Act::Give(0, num(i)));
                        acts.push(Act::Take(0, 0));
                        acts.push(Act::Show(var(0)));
                    }
                    acts.push(Act::Choose(0, 1));
                    acts
                },
                End::Stop,
            )),
            // begins: starts the next unless it is the last
            process(&[0], 1, 1, body(vec![], when(
                var(0),
                body(
                    vec![Act::Start(1, vec![], vec![sub(var(0), num(1))])],
                    End::Become(2, vec![0, 1], vec![var(0)]),
                ),
                body(vec![], End::Become(3, vec![0], vec![])),
            ))),
            process(&[0, 4], 1, 2, body(vec![], offer(
                0,
                body(
                    vec![
                        Act::Take(0, 1), Act::Choose(1, 0), Act::Give(1, add(var(0), var(1))),
                        Act::Take(1, 1), Act::Give(0, var(1)),
                    ],
                    End::Become(2, vec![0, 1], vec![var(0)]),
                ),
                body(vec![Act::Choose(1, 1)], End::Stop),
            ))),
            process(&[0], 0, 1, body(vec![], offer(
                0,
                body(vec![Act::Take(0, 0), Act::Give(0, var(0))], End::Become(3, vec![0], vec![])),
                body(vec![], End::Stop),
            ))),
        ],
    }
}

const FAR: u32 = u32::MAX;

#[derive(Clone, Copy, PartialEq)]
enum Role {
    Free,
    /// Goes on with one conversation to the end, by becoming the sink of the points that come.
    Sink,
    /// Is handed one conversation, of which it becomes the sink.
    Carrier,
}

struct Sig {
    points: Vec<u32>,
    handed: u32,
    vars: u32,
    role: Role,
    body: Option<Body>,
}

#[derive(Clone)]
struct State {
    me: usize,
    vars: u32,
    at: Vec<Option<u32>>,
    deep: usize,
}

struct Maker<'d> {
    draw: &'d mut Draw,
    points: Vec<Pt>,
    others: Vec<u32>,
    /// How many actions it takes to come to the end of a conversation, all ways of the other side gone through; `FAR`
    /// where it may go round and round.
    cost: Vec<u32>,
    /// How many steps it is to an `over`.
    dist: Vec<u32>,
    over: u32,
    sigs: Vec<Sig>,
    sinks: HashMap<u32, u32>,
    carriers: HashMap<u32, u32>,
    free: usize,
    size: usize,
}

impl Maker<'_> {
    fn make(draw: &mut Draw) -> Prog {
        let (points, others) = protocols(draw);
        let over: Vec<u32> = (0..points.len() as u32).filter(|&i| points[i as usize].kind == 0).collect();
        let over = over[draw.below(over.len())];
        let free = draw.below(10);
        let size = 2 + draw.below(24);
        let mut maker = Maker {
            draw,
            cost: costs(&points),
            dist: dists(&points),
            points,
            others,
            over,
            sigs: Vec::new(),
            sinks: HashMap::new(),
            carriers: HashMap::new(),
            free,
            size,
        };
        let vars = 1 + maker.draw.below(6) as u32;
        maker.sigs.push(Sig { points: vec![], handed: 0, vars, role: Role::Free, body: None });
        let mut f = 0;
        while f < maker.sigs.len() {
            let sig = &maker.sigs[f];
            let state =
                State { me: f, vars: sig.vars, at: sig.points.iter().map(|&p| Some(p)).collect(), deep: 0 };
            let body = match sig.role {
                Role::Free => {
                    let budget = 1 + maker.draw.below(maker.size);
                    maker.body(state, budget)
                }
                Role::Sink => maker.sink_body(state, 0, 0),
                Role::Carrier => maker.carrier_body(state),
            };
            maker.sigs[f].body = Some(body);
            f += 1;
        }
        let (points, others) = (maker.points, maker.others);
        let procs = maker.sigs;
        let mut prog = Prog { points, others, procs: Vec::new() };
        for sig in procs {
            let body = sig.body.unwrap_or(Body { acts: vec![], end: End::Stop });
            prog.procs.push(Proc { points: sig.points, handed: sig.handed, vars: sig.vars, body });
        }
        if draw.chance(1, 3) {
            for f in 0..prog.procs.len() {
                let used = used_variables(&mut prog.procs[f].body);
                let proc = &mut prog.procs[f];
                proc.vars = used.max(proc.handed);
            }
        }
        prog
    }

    fn kind(&self, p: u32) -> u32 {
        self.points[p as usize].kind
    }

    fn open(&self, st: &State) -> Vec<usize> {
        (0..st.at.len()).filter(|&c| st.at[c].is_some_and(|p| self.kind(p) != 0)).collect()
    }

    fn exp(&mut self, st: &State) -> Exp {
        if self.draw.chance(1, 40) {
            let most = 250usize.saturating_sub(st.deep).min(130);
            let long = self.draw.below(most.max(1));
            return spine(self.draw, st.vars, long);
        }
        let deep = self.draw.below(4);
        expression(self.draw, st.vars, deep)
    }

    fn small(&mut self) -> Exp {
        num(self.draw.below(6) as u32)
    }

    /// The numbers that process f is handed.
    fn es(&mut self, f: u32, st: &State) -> Vec<Exp> {
        let sig = &self.sigs[f as usize];
        let (count, role) = (sig.handed, sig.role);
        (0..count)
            .map(|_| if role == Role::Free && self.draw.chance(2, 3) { self.exp(st) } else { self.small() })
            .collect()
    }

    fn sink(&mut self, p: u32) -> u32 {
        if let Some(&f) = self.sinks.get(&p) {
            return f;
        }
        let f = self.sigs.len() as u32;
        self.sigs.push(Sig { points: vec![p], handed: 1, vars: 3, role: Role::Sink, body: None });
        self.sinks.insert(p, f);
        f
    }

    fn carrier(&mut self, p: u32) -> u32 {
        if let Some(&f) = self.carriers.get(&p) {
            return f;
        }
        let f = self.sigs.len() as u32;
        self.sigs.push(Sig { points: vec![self.over, p], handed: 1, vars: 3, role: Role::Carrier, body: None });
        self.carriers.insert(p, f);
        f
    }

    /// Conversations of `st` for the points of process f, from its `from`-th on.
    fn matched(&mut self, st: &State, f: usize, from: usize) -> Option<Vec<u32>> {
        let mut used = vec![false; st.at.len()];
        let mut cs = Vec::new();
        if self.sigs[f].points.len() < from {
            return None;
        }
        for i in from..self.sigs[f].points.len() {
            let p = self.sigs[f].points[i];
            let fit: Vec<usize> = (0..st.at.len()).filter(|&c| !used[c] && st.at[c] == Some(p)).collect();
            if fit.is_empty() {
                return None;
            }
            let c = fit[self.draw.below(fit.len())];
            used[c] = true;
            cs.push(c as u32);
        }
        Some(cs)
    }

    fn try_become(&mut self, st: &State) -> Option<End> {
        if st.me == 0 {
            return None;
        }
        let open = self.open(st);
        let count = self.sigs.len();
        let first = self.draw.below(count);
        for i in 0..count {
            let f = (first + i) % count;
            if f == 0 {
                continue;
            }
            if let Some(cs) = self.matched(st, f, 0) {
                if open.iter().all(|&c| cs.contains(&(c as u32))) {
                    let es = self.es(f as u32, st);
                    return Some(End::Become(f as u32, cs, es));
                }
            }
        }
        None
    }

    fn free_sig(&mut self, points: Vec<u32>) -> u32 {
        let handed = [0, 0, 1, 1, 2, 3][self.draw.below(6)];
        let vars = if self.draw.chance(1, 20) { 16 } else { handed + 1 + self.draw.below(4) as u32 };
        let f = self.sigs.len() as u32;
        self.sigs.push(Sig { points, handed, vars, role: Role::Free, body: None });
        self.free -= 1;
        f
    }

    /// Starts something, if there is room for one more conversation and for all that may have to be carried.
    fn try_start(&mut self, st: &mut State) -> Option<Act> {
        if st.at.len() + 2 + self.open(st).len() > 16 {
            return None;
        }
        let (f, cs) = match self.draw.below(4) {
            0 | 1 if self.free > 0 => {
                let p0 = self.draw.below(self.points.len()) as u32;
                let mut points = vec![p0];
                let mut cs = Vec::new();
                let mut live: Vec<usize> = (0..st.at.len()).filter(|&c| st.at[c].is_some()).collect();
                let hand = self.draw.below(4).min(live.len());
                for _ in 0..hand {
                    let c = live.swap_remove(self.draw.below(live.len()));
                    points.extend(st.at[c]);
                    cs.push(c as u32);
                }
                (self.free_sig(points), cs)
            }
            2 => {
                let p = self.draw.below(self.points.len()) as u32;
                if self.sinks.contains_key(&p) || self.cost[p as usize] == FAR || self.sigs.len() < 30 {
                    (self.sink(p), vec![])
                } else {
                    return None;
                }
            }
            _ => {
                let mut found = None;
                for _ in 0..6 {
                    let f = self.draw.below(self.sigs.len());
                    if f == 0 {
                        continue;
                    }
                    if let Some(cs) = self.matched(st, f, 1) {
                        found = Some((f as u32, cs));
                        break;
                    }
                }
                found?
            }
        };
        let es = self.es(f, st);
        self.hand(st, f, &cs);
        Some(Act::Start(f, cs, es))
    }

    fn hand(&self, st: &mut State, f: u32, cs: &[u32]) {
        for &c in cs {
            st.at[c as usize] = None;
        }
        st.at.push(Some(self.others[self.sigs[f as usize].points[0] as usize]));
    }

    fn body(&mut self, mut st: State, mut budget: usize) -> Body {
        let mut acts = Vec::new();
        while budget > 0 {
            budget -= 1;
            match self.draw.below(13) {
                0..=6 => {
                    let open = self.open(&st);
                    if open.is_empty() {
                        acts.extend(self.try_start(&mut st));
                        continue;
                    }
                    let c = open[self.draw.below(open.len())];
                    let Some(p) = st.at[c] else { continue };
                    let Pt { kind, n, m } = self.points[p as usize];
                    match kind {
                        1 => {
                            acts.push(Act::Give(c as u32, self.exp(&st)));
                            st.at[c] = Some(n);
                        }
                        2 => {
                            acts.push(Act::Take(c as u32, self.draw.below(st.vars as usize) as u32));
                            st.at[c] = Some(n);
                        }
                        3 if self.draw.chance(1, 3) => {
                            let e = self.exp(&st);
                            st.deep += 1;
                            let (mut s, mut t) = (st.clone(), st);
                            s.at[c] = Some(n);
                            t.at[c] = Some(m);
                            let mut s = self.body(s, budget / 2);
                            let mut t = self.body(t, budget / 2);
                            s.acts.insert(0, Act::Choose(c as u32, 0));
                            t.acts.insert(0, Act::Choose(c as u32, 1));
                            return body(acts, when(e, s, t));
                        }
                        3 => {
                            let k = self.draw.below(2) as u32;
                            acts.push(Act::Choose(c as u32, k));
                            st.at[c] = Some(if k == 0 { n } else { m });
                        }
                        _ => {
                            st.deep += 1;
                            let (mut s, mut t) = (st.clone(), st);
                            s.at[c] = Some(n);
                            t.at[c] = Some(m);
                            let s = self.body(s, budget / 2);
                            let t = self.body(t, budget / 2);
                            return body(acts, offer(c as u32, s, t));
                        }
                    }
                }
                7 => acts.push(Act::Set(self.draw.below(st.vars as usize) as u32, self.exp(&st))),
                8 if self.draw.chance(1, 2) => {
                    let e = self.exp(&st);
                    st.deep += 1;
                    let s = self.body(st.clone(), budget / 2);
                    let t = self.body(st, budget / 2);
                    return body(acts, when(e, s, t));
                }
                9 | 10 if st.me == 0 => acts.push(Act::Show(self.exp(&st))),
                11 if self.draw.chance(1, 4) => {
                    if let Some(end) = self.try_become(&st) {
                        return body(acts, end);
                    }
                }
                _ => acts.extend(self.try_start(&mut st)),
            }
        }
        let close = self.close(st);
        acts.extend(close.acts);
        body(acts, close.end)
    }

    /// Brings all conversations to their ends.
    fn close(&mut self, mut st: State) -> Body {
        let mut acts = Vec::new();
        loop {
            let open = self.open(&st);
            if open.is_empty() {
                if st.me == 0 {
                    if self.draw.chance(1, 15) {
                        return body(acts, End::Become(0, vec![], vec![]));
                    }
                    if self.draw.chance(1, 2) {
                        acts.push(Act::Show(self.exp(&st)));
                    }
                } else if self.draw.chance(1, 6) {
                    if let Some(end) = self.try_become(&st) {
                        return body(acts, end);
                    }
                }
                return body(acts, End::Stop);
            }
            if self.draw.chance(1, 4) {
                if let Some(end) = self.try_become(&st) {
                    return body(acts, end);
                }
            }
            let mut product = 1u64;
            for &c in &open {
                let cost = self.cost[st.at[c].unwrap_or(0) as usize];
                product = product.saturating_mul(1 + cost as u64);
            }
            let room = 16 - st.at.len() >= open.len();
            let far = open.iter().copied().find(|&c| {
                let p = st.at[c].unwrap_or(0);
                self.cost[p as usize] == FAR || (product > 100 && self.sigs.len() < 30 && room)
            });
            if let Some(c) = far {
                let p = st.at[c].unwrap_or(0);
                let e = self.small();
                if st.me != 0 && open.len() == 1 {
                    let f = self.sink(p);
                    return body(acts, End::Become(f, vec![c as u32], vec![e]));
                }
                let f = self.carrier(p);
                acts.push(Act::Start(f, vec![c as u32], vec![e]));
                self.hand(&mut st, f, &[c as u32]);
                continue;
            }
            let c = open[self.draw.below(open.len())];
            let Some(p) = st.at[c] else { continue };
            let Pt { kind, n, m } = self.points[p as usize];
            match kind {
                1 => {
                    acts.push(Act::Give(c as u32, self.exp(&st)));
                    st.at[c] = Some(n);
                }
                2 => {
                    acts.push(Act::Take(c as u32, self.draw.below(st.vars as usize) as u32));
                    st.at[c] = Some(n);
                }
                3 => {
                    let k = self.cost[m as usize] < self.cost[n as usize];
                    acts.push(Act::Choose(c as u32, k as u32));
                    st.at[c] = Some(if k { m } else { n });
                }
                _ => {
                    st.deep += 1;
                    let (mut s, mut t) = (st.clone(), st);
                    s.at[c] = Some(n);
                    t.at[c] = Some(m);
                    let s = self.close(s);
                    let t = self.close(t);
                    return body(acts, offer(c as u32, s, t));
                }
            }
        }
    }

    /// A body that goes on in conversation `c`, all others being over, with the rounds to go in variable 0.
    fn sink_body(&mut self, mut st: State, c: usize, mut steps: usize) -> Body {
        let mut acts = Vec::new();
        loop {
            let Some(p) = st.at[c] else { return body(acts, End::Stop) };
            let Pt { kind, n, m } = self.points[p as usize];
            if kind == 0 {
                return body(acts, End::Stop);
            }
            if steps > 0 && (steps > 3 || self.draw.chance(1, 2)) {
                if self.cost[p as usize] != FAR {
                    let close = self.close(st);
                    acts.extend(close.acts);
                    return body(acts, close.end);
                }
                let f = self.sink(p);
                return body(acts, End::Become(f, vec![c as u32], vec![var(0)]));
            }
            steps += 1;
            let c32 = c as u32;
            match kind {
                1 => {
                    let e = self.exp(&st);
                    acts.push(Act::Give(c32, if self.draw.chance(1, 2) { add(var(1), e) } else { e }));
                    st.at[c] = Some(n);
                }
                2 => {
                    acts.push(Act::Take(c32, 1 + self.draw.below(2) as u32));
                    st.at[c] = Some(n);
                }
                3 => {
                    let near = (self.dist[m as usize] < self.dist[n as usize]) as u32;
                    let (far_point, near_point) = if near == 0 { (m, n) } else { (n, m) };
                    st.deep += 1;
                    let far = if self.kind(far_point) == 0 {
                        body(vec![Act::Choose(c32, 1 - near)], End::Stop)
                    } else if self.cost[far_point as usize] == FAR {
                        let f = self.sink(far_point);
                        let end = End::Become(f, vec![c32], vec![sub(var(0), num(1))]);
                        body(vec![Act::Choose(c32, 1 - near)], end)
                    } else {
                        let mut to = st.clone();
                        to.at[c] = Some(far_point);
                        let mut close = self.close(to);
                        close.acts.insert(0, Act::Choose(c32, 1 - near));
                        close
                    };
                    st.at[c] = Some(near_point);
                    let mut rest = self.sink_body(st, c, steps);
                    rest.acts.insert(0, Act::Choose(c32, near));
                    return body(acts, when(var(0), far, rest));
                }
                _ => {
                    st.deep += 1;
                    let (mut s, mut t) = (st.clone(), st);
                    s.at[c] = Some(n);
                    t.at[c] = Some(m);
                    let s = self.sink_body(s, c, steps);
                    let t = self.sink_body(t, c, steps);
                    return body(acts, offer(c32, s, t));
                }
            }
        }
    }

    fn carrier_body(&mut self, st: State) -> Body {
        let p = st.at[1].unwrap_or(0);
        if self.cost[p as usize] != FAR {
            return self.close(st);
        }
        if self.draw.chance(1, 2) {
            let f = self.sink(p);
            return body(vec![], End::Become(f, vec![1], vec![var(0)]));
        }
        self.sink_body(st, 1, 0)
    }
}

fn used_variables(b: &mut Body) -> u32 {
    fn of(e: &Exp) -> u32 {
        match e {
            Exp::Num(_) => 0,
            Exp::Var(x) => x + 1,
            Exp::Op(_, a, b) => of(a).max(of(b)),
        }
    }
    let mut most = 0;
    each_body(b, &mut |b| {
        for act in &b.acts {
            let used = match act {
                Act::Take(_, x) => x + 1,
                Act::Set(x, e) => of(e).max(x + 1),
                Act::Give(_, e) | Act::Show(e) => of(e),
                Act::Start(_, _, es) => es.iter().map(of).max().unwrap_or(0),
                Act::Choose(..) => 0,
            };
            most = most.max(used);
        }
        most = most.max(match &b.end {
            End::If(e, ..) => of(e),
            End::Become(_, _, es) => es.iter().map(of).max().unwrap_or(0),
            _ => 0,
        });
    });
    most
}

fn protocols(draw: &mut Draw) -> (Vec<Pt>, Vec<u32>) {
    let (mut points, mut others) = (Vec::new(), Vec::new());
    let mut rounds = 0;
    for _ in 0..1 + draw.below(4) {
        let round = rounds < 2 && draw.chance(1, 2);
        rounds += round as usize;
        let size = if round { 1 + draw.below(4) } else { draw.below(7) };
        let base = points.len() as u32;
        let alone = draw.chance(1, 3);
        let side = |i: usize, flip: bool| base + 2 * i as u32 + (flip && !(alone && i == size)) as u32;
        for i in 0..size {
            let target = |draw: &mut Draw| if round { draw.below(size + 1) } else { i + 1 + draw.below(size - i) };
            let (j, flip, k, turn) = (target(draw), draw.chance(1, 2), target(draw), draw.chance(1, 2));
            let kind = 1 + draw.below(4) as u32;
            let dual = [0, 2, 1, 4, 3][kind as usize];
            let two = kind > 2;
            points.push(pt(kind, side(j, flip), if two { side(k, turn) } else { 0 }));
            points.push(pt(dual, side(j, !flip), if two { side(k, !turn) } else { 0 }));
            others.push(side(i, true));
            others.push(side(i, false));
        }
        points.push(pt(0, 0, 0));
        others.push(side(size, true));
        if !alone {
            points.push(pt(0, 0, 0));
            others.push(side(size, false));
        }
    }
    if draw.chance(1, 2) {
        // Other numbers for the same points.
        let count = points.len();
        let mut to: Vec<u32> = (0..count as u32).collect();
        for i in (1..count).rev() {
            to.swap(i, draw.below(i + 1));
        }
        let (old, names) = (points.clone(), others.clone());
        for i in 0..count {
            let mut p = old[i];
            if p.kind > 0 {
                p.n = to[p.n as usize];
            }
            if p.kind > 2 {
                p.m = to[p.m as usize];
            }
            points[to[i] as usize] = p;
            others[to[i] as usize] = to[names[i] as usize];
        }
    }
    (points, others)
}

fn costs(points: &[Pt]) -> Vec<u32> {
    let mut cost = vec![FAR; points.len()];
    for _ in 0..=points.len() {
        for (i, p) in points.iter().enumerate() {
            let of = |n: u32| cost[n as usize] as u64;
            let c = match p.kind {
                0 => 0,
                1 | 2 => 1 + of(p.n),
                3 => 1 + of(p.n).min(of(p.m)),
                _ => 1 + of(p.n) + of(p.m),
            };
            if c < 100 {
                cost[i] = c as u32;
            }
        }
    }
    // Where one may go round and round, so that loops come about: a choice has to have both ways near.
    let mut fine = vec![false; points.len()];
    for _ in 0..=points.len() {
        for (i, p) in points.iter().enumerate() {
            fine[i] = match p.kind {
                0 => true,
                1 | 2 => fine[p.n as usize],
                _ => fine[p.n as usize] && fine[p.m as usize],
            };
        }
    }
    (0..points.len()).map(|i| if fine[i] { cost[i] } else { FAR }).collect()
}

fn dists(points: &[Pt]) -> Vec<u32> {
    let mut dist = vec![FAR; points.len()];
    for _ in 0..=points.len() {
        for (i, p) in points.iter().enumerate() {
            let of = |n: u32| dist[n as usize];
            dist[i] = match p.kind {
                0 => 0,
                1 | 2 => of(p.n).saturating_add(1),
                _ => of(p.n).min(of(p.m)).saturating_add(1),
            };
        }
    }
    dist
}

fn expression(draw: &mut Draw, vars: u32, deep: usize) -> Exp {
    match draw.below(10) {
        0..=2 if vars > 0 => var(draw.below(vars as usize) as u32),
        3..=7 if deep > 0 => op(
            2 + draw.below(4) as u32,
            expression(draw, vars, deep - 1),
            expression(draw, vars, deep - 1),
        ),
        8 => num(draw.next() as u32),
        9 if draw.chance(1, 3) => num(u32::MAX - draw.below(3) as u32),
        _ => num(draw.below(12) as u32),
    }
}

/// An expression with `long` operations along one way.
fn spine(draw: &mut Draw, vars: u32, long: usize) -> Exp {
    let side = draw.below(3);
    let mut e = expression(draw, vars, 0);
    for i in 0..long {
        let leaf = expression(draw, vars, 0);
        let kind = 2 + draw.below(4) as u32;
        let left = side == 0 || (side == 2 && i % 2 == 0);
        e = if left { op(kind, e, leaf) } else { op(kind, leaf, e) };
    }
    e
}

// One mistake.

fn each_body(b: &mut Body, f: &mut dyn FnMut(&mut Body)) {
    f(b);
    if let End::Offer(_, s, t) | End::If(_, s, t) = &mut b.end {
        each_body(s, f);
        each_body(t, f);
    }
}

/// A place in a program: an action of a body, or (past the last action) its end.
type Test<'t> = &'t dyn Fn(usize, &Body, usize) -> bool;
type Change<'t> = &'t mut dyn FnMut(&mut Draw, usize, &mut Body, usize);

/// Changes one place, drawn from all that pass the test.
fn alter(draw: &mut Draw, prog: &mut Prog, test: Test, change: Change) -> bool {
    let mut count = 0;
    for (f, proc) in prog.procs.iter_mut().enumerate() {
        each_body(&mut proc.body, &mut |b| {
            count += (0..=b.acts.len()).filter(|&i| test(f, b, i)).count();
        });
    }
    if count == 0 {
        return false;
    }
    let mut left = draw.below(count) as isize;
    for (f, proc) in prog.procs.iter_mut().enumerate() {
        each_body(&mut proc.body, &mut |b| {
            let mut i = 0;
            while left >= 0 && i <= b.acts.len() {
                if test(f, b, i) {
                    if left == 0 {
                        change(draw, f, b, i);
                    }
                    left -= 1;
                }
                i += 1;
            }
        });
        if left < 0 {
            break;
        }
    }
    true
}

fn some_word(draw: &mut Draw, near: usize) -> u32 {
    match draw.below(5) {
        0 => u32::MAX,
        1 => near as u32,
        2 => near as u32 + draw.below(20) as u32,
        _ => draw.below(near + 2) as u32,
    }
}

fn spoil_leaf(draw: &mut Draw, e: &mut Exp, with: u32) {
    match e {
        Exp::Op(_, a, b) => {
            let left = draw.chance(1, 2);
            spoil_leaf(draw, if left { a } else { b }, with)
        }
        leaf => *leaf = Exp::Var(with),
    }
}

fn exps(b: &mut Body, i: usize) -> Vec<&mut Exp> {
    if i < b.acts.len() {
        match &mut b.acts[i] {
            Act::Give(_, e) | Act::Set(_, e) | Act::Show(e) => vec![e],
            Act::Start(_, _, es) => es.iter_mut().collect(),
            _ => vec![],
        }
    } else {
        match &mut b.end {
            End::If(e, ..) => vec![e],
            End::Become(_, _, es) => es.iter_mut().collect(),
            _ => vec![],
        }
    }
}

fn has_exps(b: &Body, i: usize) -> bool {
    match b.acts.get(i) {
        Some(Act::Give(..) | Act::Set(..) | Act::Show(..)) => true,
        Some(Act::Start(_, _, es)) => !es.is_empty(),
        Some(_) => false,
        None => match &b.end {
            End::If(..) => true,
            End::Become(_, _, es) => !es.is_empty(),
            _ => false,
        },
    }
}

/// The lists of a start or a become.
fn lists(b: &mut Body, i: usize) -> Option<(&mut u32, &mut Vec<u32>, &mut Vec<Exp>)> {
    if i < b.acts.len() {
        match &mut b.acts[i] {
            Act::Start(f, cs, es) => Some((f, cs, es)),
            _ => None,
        }
    } else {
        match &mut b.end {
            End::Become(f, cs, es) => Some((f, cs, es)),
            _ => None,
        }
    }
}

fn has_lists(b: &Body, i: usize) -> bool {
    matches!(b.acts.get(i), Some(Act::Start(..))) || (i == b.acts.len() && matches!(b.end, End::Become(..)))
}

/// Makes one mistake, most likely; which one is drawn.
pub fn mistake(draw: &mut Draw, prog: &mut Prog) {
    for _ in 0..50 {
        let which = draw.below(MISTAKES);
        if make_mistake(draw, prog, which) {
            return;
        }
    }
}

pub const MISTAKES: usize = 40;

/// Makes the mistake with this number; false if there is no place for it.
pub fn make_mistake(draw: &mut Draw, prog: &mut Prog, which: usize) -> bool {
    let count = prog.procs.len();
    let points = prog.points.len();
    let over = (0..points).find(|&i| prog.points[i].kind == 0).unwrap_or(0) as u32;
    let vars: Vec<u32> = prog.procs.iter().map(|p| p.vars).collect();
    match which {
        // Rule 1.
        0 => prog.procs.clear(),
        1 => prog.procs[0].points.push(over),
        2 => {
            prog.procs[0].handed = 1;
            prog.procs[0].vars = prog.procs[0].vars.max(1);
        }
        // Points.
        3 => {
            let i = draw.below(points);
            prog.others[i] = some_word(draw, points);
        }
        4 => {
            let some: Vec<usize> = (0..points).filter(|&i| prog.points[i].kind > 0).collect();
            if some.is_empty() {
                return false;
            }
            let i = some[draw.below(some.len())];
            let to = some_word(draw, points);
            if prog.points[i].kind > 2 && draw.chance(1, 2) {
                prog.points[i].m = to;
            } else {
                prog.points[i].n = to;
            }
        }
        5 => {
            let i = draw.below(points);
            prog.points[i].kind = draw.below(5) as u32;
        }
        6 => {
            // A point that nobody uses and that does not fit.
            let to = points as u32;
            prog.points.push(pt(draw.below(5) as u32, to, to));
            prog.others.push(if draw.chance(1, 2) { to } else { some_word(draw, points) });
        }
        7 => {
            let (i, j) = (draw.below(points), draw.below(points));
            prog.others.swap(i, j);
        }
        8 => {
            // Both sides want the same.
            let i = draw.below(points);
            let j = prog.others[i] as usize;
            prog.points[i] = prog.points[j];
        }
        9 => {
            // A point's two ways the wrong way round on one side.
            let some: Vec<usize> = (0..points).filter(|&i| prog.points[i].kind > 2).collect();
            if some.is_empty() {
                return false;
            }
            let p = &mut prog.points[some[draw.below(some.len())]];
            std::mem::swap(&mut p.n, &mut p.m);
        }
        // Actions.
        10 => {
            return alter(
                draw,
                prog,
                &|_, b, i| matches!(b.acts.get(i), Some(Act::Give(..) | Act::Take(..) | Act::Choose(..))),
                &mut |draw, _, b, i| {
                    let c = match &b.acts[i] {
                        Act::Give(c, _) | Act::Take(c, _) | Act::Choose(c, _) => *c,
                        _ => 0,
                    };
                    b.acts[i] = match draw.below(3) {
                        0 => Act::Give(c, num(1)),
                        1 => Act::Take(c, 0),
                        _ => Act::Choose(c, 0),
                    };
                },
            )
        }
        11 => {
            return alter(
                draw,
                prog,
                &|_, b, i| {
                    matches!(b.acts.get(i), Some(Act::Give(..) | Act::Take(..) | Act::Choose(..)))
                        || (i == b.acts.len() && matches!(b.end, End::Offer(..)))
                },
                &mut |draw, _, b, i| {
                    let to = some_word(draw, 3);
                    if i < b.acts.len() {
                        if let Act::Give(c, _) | Act::Take(c, _) | Act::Choose(c, _) = &mut b.acts[i] {
                            *c = to;
                        }
                    } else if let End::Offer(c, ..) = &mut b.end {
                        *c = to;
                    }
                },
            )
        }
        12 => {
            return alter(
                draw,
                prog,
                &|_, b, i| matches!(b.acts.get(i), Some(Act::Set(..) | Act::Take(..))),
                &mut |draw, f, b, i| {
                    if let Act::Set(x, _) | Act::Take(_, x) = &mut b.acts[i] {
                        *x = if draw.chance(1, 2) { vars[f] } else { some_word(draw, vars[f] as usize) };
                    }
                },
            )
        }
        13 | 14 => {
            return alter(draw, prog, &|_, b, i| has_exps(b, i), &mut |draw, f, b, i| {
                let mut all = exps(b, i);
                let one = draw.below(all.len());
                let to = if draw.chance(2, 3) { vars[f] } else { some_word(draw, vars[f] as usize) };
                spoil_leaf(draw, all[one], to);
            })
        }
        15 => {
            return alter(
                draw,
                prog,
                &|_, b, i| matches!(b.acts.get(i), Some(Act::Choose(..))),
                &mut |draw, _, b, i| {
                    if let Act::Choose(_, k) = &mut b.acts[i] {
                        *k = if draw.chance(1, 2) { 2 } else { some_word(draw, 2) };
                    }
                },
            )
        }
        16 => {
            return alter(
                draw,
                prog,
                &|_, b, i| matches!(b.acts.get(i), Some(Act::Choose(..))),
                &mut |_, _, b, i| {
                    if let Act::Choose(_, k) = &mut b.acts[i] {
                        *k ^= 1;
                    }
                },
            )
        }
        17 => {
            return alter(draw, prog, &|_, b, i| i < b.acts.len(), &mut |_, _, b, i| {
                b.acts.remove(i);
            })
        }
        18 => {
            return alter(draw, prog, &|_, b, i| i < b.acts.len(), &mut |_, _, b, i| {
                let again = b.acts[i].clone();
                b.acts.insert(i, again);
            })
        }
        19 => {
            return alter(draw, prog, &|_, b, i| i + 1 < b.acts.len(), &mut |_, _, b, i| b.acts.swap(i, i + 1));
        }
        20 => {
            return alter(
                draw,
                prog,
                &|_, b, i| i == b.acts.len() && !matches!(b.end, End::Stop),
                &mut |_, _, b, _| b.end = End::Stop,
            )
        }
        21 => {
            return alter(
                draw,
                prog,
                &|_, b, i| i == b.acts.len() && matches!(b.end, End::Stop),
                &mut |draw, _, b, _| b.end = End::Become(draw.below(count) as u32, vec![], vec![]),
            )
        }
        22 => {
            return alter(
                draw,
                prog,
                &|_, b, i| i == b.acts.len() && matches!(b.end, End::Offer(..) | End::If(..)),
                &mut |_, _, b, _| {
                    if let End::Offer(_, s, t) | End::If(_, s, t) = &mut b.end {
                        std::mem::swap(s, t);
                    }
                },
            )
        }
        23 => {
            return alter(draw, prog, &|f, _, _| f > 0, &mut |_, _, b, i| {
                b.acts.insert(i, Act::Show(num(7)));
            })
        }
        // Start and become.
        24 => {
            return alter(draw, prog, &|_, b, i| has_lists(b, i), &mut |draw, _, b, i| {
                if let Some((f, ..)) = lists(b, i) {
                    *f = [0, count as u32, u32::MAX, 64][draw.below(4)];
                }
            })
        }
        25 => {
            return alter(draw, prog, &|_, b, i| has_lists(b, i), &mut |draw, _, b, i| {
                if let Some((f, ..)) = lists(b, i) {
                    *f = draw.below(count) as u32;
                }
            })
        }
        26 => {
            return alter(draw, prog, &|_, b, i| has_lists(b, i), &mut |draw, _, b, i| {
                if let Some((_, _, es)) = lists(b, i) {
                    if es.is_empty() || draw.chance(1, 2) {
                        for _ in 0..[1, 1, 1, 20][draw.below(4)] {
                            es.push(num(3));
                        }
                    } else {
                        es.pop();
                    }
                }
            })
        }
        27..=29 => {
            return alter(draw, prog, &|_, b, i| has_lists(b, i), &mut |draw, _, b, i| {
                if let Some((_, cs, _)) = lists(b, i) {
                    match draw.below(6) {
                        0 if !cs.is_empty() => {
                            let one = cs[draw.below(cs.len())];
                            cs.push(one);
                        }
                        1 if !cs.is_empty() => {
                            cs.remove(draw.below(cs.len()));
                        }
                        2 if cs.len() > 1 => cs.swap(0, 1),
                        3 if cs.len() > 1 => cs[1] = cs[0],
                        4 if !cs.is_empty() => {
                            let one = draw.below(cs.len());
                            cs[one] = some_word(draw, 4);
                        }
                        5 => (0..17).for_each(|c| cs.push(c)),
                        _ => cs.push(some_word(draw, 3)),
                    }
                }
            })
        }
        30 => {
            // Something is left open when it stops or becomes.
            let to = 1 + draw.below(count.max(2) - 1) as u32;
            return alter(
                draw,
                prog,
                &|_, b, i| i == b.acts.len() && matches!(b.end, End::Stop | End::Become(..)),
                &mut |_, _, b, i| b.acts.insert(i, Act::Start(to, vec![], vec![])),
            );
        }
        31 => {
            return alter(
                draw,
                prog,
                &|_, b, i| i == b.acts.len() && matches!(b.end, End::Stop),
                &mut |_, f, b, _| b.end = End::Become(if f == 0 { 1 } else { 0 }, vec![], vec![]),
            )
        }
        // Processes.
        32 => {
            let some: Vec<usize> = (0..count).filter(|&f| !prog.procs[f].points.is_empty()).collect();
            if some.is_empty() {
                return false;
            }
            let begins = &mut prog.procs[some[draw.below(some.len())]].points;
            let i = draw.below(begins.len());
            begins[i] = some_word(draw, points);
        }
        33 => {
            let f = draw.below(count);
            let proc = &mut prog.procs[f];
            if proc.vars <= proc.handed {
                return false;
            }
            proc.vars -= 1;
        }
        34 => {
            let f = draw.below(count);
            let proc = &mut prog.procs[f];
            if proc.handed > 0 && draw.chance(1, 2) {
                proc.handed -= 1;
            } else if proc.handed < proc.vars {
                proc.handed += 1;
            } else {
                return false;
            }
        }
        35 => {
            // A twin says the same, but is another point.
            let i = draw.below(points);
            let j = prog.others[i] as usize;
            let new = points as u32;
            prog.points.push(prog.points[i]);
            if i == j {
                prog.others.push(new);
            } else {
                prog.points.push(prog.points[j]);
                prog.others.extend([new + 1, new]);
            }
            let mut places = Vec::new();
            for (f, proc) in prog.procs.iter().enumerate() {
                for (c, &p) in proc.points.iter().enumerate() {
                    if p as usize == i {
                        places.push((f, c));
                    }
                }
            }
            if places.is_empty() || draw.chance(1, 5) {
                // One of the nexts, on one side or on both.
                for p in prog.points.iter_mut() {
                    if p.kind > 0 && p.n as usize == i {
                        p.n = new;
                        break;
                    }
                }
            } else {
                let (f, c) = places[draw.below(places.len())];
                prog.procs[f].points[c] = new;
            }
        }
        36 => {
            // A process that begins where there is no point, and becomes itself, or not only that.
            let f = count as u32;
            let nowhere = some_word(draw, points).max(points as u32);
            let b = match draw.below(6) {
                0 | 1 => body(vec![], End::Become(f, vec![0], vec![])),
                2 => body(vec![], End::Stop),
                3 => body(vec![Act::Give(0, num(1))], End::Become(f, vec![0], vec![])),
                4 => body(vec![Act::Start(f, vec![], vec![])], End::Become(f, vec![0], vec![])),
                _ => {
                    // Handed on to another that wants the same number.
                    let two = process(&[over, nowhere], 0, 0, body(vec![], End::Become(f, vec![1], vec![])));
                    prog.procs.push(process(
                        &[nowhere],
                        0,
                        0,
                        body(vec![Act::Start(f + 1, vec![0], vec![])], End::Stop),
                    ));
                    prog.procs.push(two);
                    return true;
                }
            };
            prog.procs.push(process(&[nowhere], 0, 0, b));
        }
        37 => {
            // A process that nobody starts, and that does not keep.
            let b = match draw.below(4) {
                0 => body(vec![Act::Show(num(1))], End::Stop),
                1 => body(vec![Act::Give(0, num(1))], End::Stop),
                2 => body(vec![], End::Become(0, vec![], vec![])),
                _ => body(vec![Act::Set(0, num(1))], End::Stop),
            };
            prog.procs.push(process(&[over], 0, 0, b));
        }
        38 => {
            // Two processes change places.
            let (f, g) = (draw.below(count), draw.below(count));
            prog.procs.swap(f, g);
        }
        _ => {
            // One process's body for another's.
            let (f, g) = (draw.below(count), draw.below(count));
            prog.procs[f].body = prog.procs[g].body.clone();
        }
    }
    true
}

// Rows that were damaged.

fn damaged(draw: &mut Draw) -> Vec<u32> {
    let mut row = keeper(draw).write();
    for _ in 0..1 + draw.below(3) {
        let long = row.len().max(1);
        let i = draw.below(long).min(row.len().saturating_sub(1));
        let word = match draw.below(6) {
            0 => u32::MAX - draw.below(2) as u32,
            1 => draw.next() as u32,
            2 => row.len() as u32 + draw.below(3) as u32,
            _ => draw.below(12) as u32,
        };
        match draw.below(9) {
            0..=2 if !row.is_empty() => row[i] = word,
            3 => row.insert(i, word),
            4 if !row.is_empty() => {
                row.remove(i);
            }
            5 => row.truncate(i),
            6 => row.push(word),
            7 if !row.is_empty() => row[i] = row[i].wrapping_add(if draw.chance(1, 2) { 1 } else { u32::MAX }),
            _ => {
                let j = draw.below(long).min(row.len().saturating_sub(1));
                if !row.is_empty() {
                    row.swap(i, j);
                }
            }
        }
    }
    row
}

fn random_words(draw: &mut Draw) -> Vec<u32> {
    let long = match draw.below(5) {
        0 => 0,
        1 => 1 + draw.below(3),
        2 => draw.below(200),
        _ => draw.below(30),
    };
    let range = [2, 3, 6, 10, 20][draw.below(5)];
    let mut row: Vec<u32> = match draw.below(4) {
        0 => (0..long).map(|_| draw.next() as u32).collect(),
        _ => (0..long).map(|_| draw.below(range) as u32).collect(),
    };
    if draw.chance(1, 2) && !row.is_empty() {
        row[0] = draw.below(2) as u32;
    }
    row
}

// Programs written without care.

fn wild(draw: &mut Draw) -> Prog {
    if draw.chance(1, 2) {
        return wild_talk(draw);
    }
    let mut prog = Prog::default();
    let points = draw.below(5);
    for _ in 0..points {
        prog.points.push(pt(draw.below(5) as u32, some_number(draw, points), some_number(draw, points)));
        prog.others.push(some_number(draw, points));
    }
    let count = draw.below(5);
    for f in 0..count {
        let begins = if f == 0 { draw.below(2) * draw.below(2) } else { draw.below(4) };
        let vars = draw.below(4) as u32;
        prog.procs.push(Proc {
            points: (0..begins).map(|_| some_number(draw, points)).collect(),
            handed: draw.below(vars as usize + 1) as u32,
            vars,
            body: wild_body(draw, count, 4, 6),
        });
    }
    prog
}

fn some_number(draw: &mut Draw, near: usize) -> u32 {
    if draw.chance(1, 20) {
        some_word(draw, near)
    } else {
        draw.below(near.max(1)) as u32
    }
}

fn wild_body(draw: &mut Draw, count: usize, deep: usize, mut new: usize) -> Body {
    let mut acts = Vec::new();
    let e = |draw: &mut Draw| {
        let deep = draw.below(3);
        let vars = draw.below(5) as u32;
        expression(draw, vars, deep)
    };
    let cs = |draw: &mut Draw| -> Vec<u32> { (0..draw.below(4)).map(|_| some_number(draw, 4)).collect() };
    for _ in 0..draw.below(6) {
        acts.push(match draw.below(8) {
            0 | 1 => Act::Give(some_number(draw, 3), e(draw)),
            2 | 3 => Act::Take(some_number(draw, 3), some_number(draw, 3)),
            4 => Act::Choose(some_number(draw, 3), some_number(draw, 2)),
            5 => Act::Set(some_number(draw, 3), e(draw)),
            6 => Act::Show(e(draw)),
            _ if new == 0 => continue,
            _ => {
                new -= 1;
                let es = (0..draw.below(3)).map(|_| e(draw)).collect();
                Act::Start(some_number(draw, count), cs(draw), es)
            }
        });
    }
    let end = match draw.below(6) {
        0 | 1 if deep > 0 => {
            let (s, t) = (wild_body(draw, count, deep - 1, new), wild_body(draw, count, deep - 1, new));
            if draw.chance(1, 2) {
                offer(some_number(draw, 3), s, t)
            } else {
                when(e(draw), s, t)
            }
        }
        2 | 3 => {
            let es = (0..draw.below(3)).map(|_| e(draw)).collect();
            End::Become(some_number(draw, count), cs(draw), es)
        }
        _ => End::Stop,
    };
    Body { acts, end }
}

/// Few processes with few lines that talk a lot, handing ends on and now and then twice: jams of all kinds.
fn wild_talk(draw: &mut Draw) -> Prog {
    let count = 2 + draw.below(3);
    let mut prog = Prog { points: vec![pt(0, 0, 0)], others: vec![0], procs: Vec::new() };
    for f in 0..count {
        let begins = if f == 0 { 0 } else { 1 + draw.below(2) };
        let mut have = begins as u32;
        let mut acts = Vec::new();
        let mut new = 0;
        for _ in 0..1 + draw.below(7) {
            let c = draw.below(have.max(1) as usize) as u32;
            acts.push(match draw.below(7) {
                0 | 1 if have > 0 => Act::Give(c, num(draw.below(9) as u32)),
                2 | 3 if have > 0 => Act::Take(c, 0),
                4 if have > 0 => Act::Choose(c, draw.below(3) as u32),
                _ if new < 6 && f + 1 < count => {
                    let to = f + 1 + draw.below(count - f - 1);
                    let mut cs = Vec::new();
                    if have > 0 && draw.chance(1, 2) {
                        cs.push(c);
                        if draw.chance(1, 2) {
                            cs.push(c);
                        }
                    }
                    new += 1;
                    have += 1;
                    Act::Start(to as u32, cs, vec![])
                }
                _ => Act::Set(0, num(1)),
            });
        }
        let end = match draw.below(5) {
            0 => End::Become(f as u32, (0..have).collect(), vec![]),
            1 => offer(
                draw.below(have.max(1) as usize) as u32,
                body(vec![], End::Stop),
                body(vec![Act::Take(0, 0)], End::Stop),
            ),
            _ => End::Stop,
        };
        prog.procs.push(Proc { points: vec![0; begins], handed: 0, vars: 1, body: Body { acts, end } });
    }
    prog
}

// Both sides of every limit.

fn nested(mut e: Exp, times: usize, side: usize) -> Exp {
    for i in 0..times {
        let left = side == 0 || (side == 2 && i % 2 == 0);
        e = if left { op(2, e, num(1)) } else { op(3, num(1), e) };
    }
    e
}

/// Which limits there are to draw from.
pub const LIMITS: usize = 20;

fn limit(draw: &mut Draw) -> Vec<u32> {
    let which = draw.below(LIMITS);
    let past = draw.below(3).min(1);
    limit_row(draw, which, past)
}

/// A program at a limit (`past` 0) or one past it (1). All of those at the limit keep, unless something else is drawn.
pub fn limit_row(draw: &mut Draw, which: usize, past: usize) -> Vec<u32> {
    let stop = || body(vec![], End::Stop);
    let plain = |b: Body| process(&[], 0, 1, b);
    // A point that is over, two that go round with gives and takes (1, 2), and two with offers and chooses (3, 4).
    let rounds = Prog {
        points: vec![pt(0, 0, 0), pt(1, 1, 0), pt(2, 2, 0), pt(4, 3, 3), pt(3, 4, 4)],
        others: vec![0, 2, 1, 4, 3],
        procs: vec![plain(stop())],
    };
    match which {
        // Words.
        0 => {
            let want = 16_384 + past;
            let mut row = vec![0, 0, 0, 1];
            // What is left is 4a + 3b + 1.
            let left = want - row.len() - 1;
            let threes = (0..4).find(|b| (left - 3 * b) % 4 == 0).unwrap_or(0);
            for _ in 0..threes {
                row.extend([7, 1, 0]);
            }
            while row.len() + 1 < want {
                row.extend([5, 0, 0, 9]);
            }
            row.push(0);
            row
        }
        // Points.
        1 => {
            let count = 256 + past;
            let mut prog = Prog { points: vec![], others: vec![], procs: vec![plain(stop())] };
            for i in 0..count {
                prog.points.push(pt(0, 0, 0));
                let pair = if count % 2 == 0 || i + 1 < count { i ^ 1 } else { i };
                prog.others.push(pair as u32);
            }
            prog.write()
        }
        // Processes.
        2 => {
            let mut prog = rounds;
            while prog.procs.len() < 64 + past {
                prog.procs.push(process(&[1], 0, 0, body(vec![], End::Become(1, vec![0], vec![]))));
            }
            prog.write()
        }
        // Conversations.
        3 => {
            let mut prog = rounds;
            prog.procs.push(process(&vec![0; 16 + past], 0, 0, stop()));
            prog.write()
        }
        4 => {
            let mut prog = rounds;
            let begins = draw.below(17);
            let starts = 16 - begins + past;
            let acts = |k: usize| (0..k).map(|_| Act::Start(2, vec![], vec![])).collect::<Vec<_>>();
            let b = match draw.below(4) {
                0 => body(acts(starts), End::Stop),
                // The worst way counts, not the ways together.
                1 => body(vec![], when(num(1), body(acts(starts), End::Stop), body(acts(16 - begins), End::Stop))),
                2 => {
                    let half = starts / 2;
                    let mut rest = acts(starts - half);
                    rest.push(Act::Set(0, num(1)));
                    body(acts(half), when(num(1), stop(), body(rest, End::Stop)))
                }
                _ => {
                    // Handed on, and counted all the same.
                    let mut all = acts(starts.min(1));
                    for i in 1..starts {
                        all.push(Act::Start(3, vec![(begins + i - 1) as u32], vec![]));
                    }
                    body(all, End::Stop)
                }
            };
            prog.procs.push(process(&vec![0; begins], 0, 1, b));
            prog.procs.push(process(&[0], 0, 0, stop()));
            prog.procs.push(process(&[0, 0], 0, 0, stop()));
            if begins == 0 {
                prog.procs.swap(0, 1);
            }
            prog.write()
        }
        // Variables, and numbers handed in.
        5 => {
            let mut prog = rounds;
            prog.procs[0].vars = (16 + past) as u32;
            prog.procs[0].body.acts.push(Act::Set(15, num(1)));
            prog.write()
        }
        6 => {
            let mut prog = rounds;
            let vars = draw.below(17) as u32;
            let es = (0..vars as usize + past).map(|i| num(i as u32)).collect();
            prog.procs[0].body.acts.push(Act::Start(1, vec![], es));
            prog.procs.push(process(&[0], vars + past as u32, vars, stop()));
            prog.write()
        }
        // Nesting of expressions.
        7 | 8 => {
            let mut prog = rounds;
            let side = draw.below(3);
            let e = nested(var(0), 255 + past, side);
            let (b, begins): (Body, &[u32]) = match draw.below(7) {
                0 => (body(vec![Act::Show(e)], End::Stop), &[]),
                1 => (body(vec![Act::Set(0, e)], End::Stop), &[]),
                2 => (body(vec![], when(e, stop(), stop())), &[]),
                3 => (body(vec![Act::Give(0, e)], End::Become(1, vec![0], vec![num(0)])), &[1]),
                4 => (body(vec![], End::Become(1, vec![0], vec![e])), &[1]),
                5 => {
                    let acts = vec![Act::Start(1, vec![], vec![e]), Act::Set(0, num(0))];
                    (body(acts, End::Become(1, vec![1], vec![num(0)])), &[0])
                }
                _ => (body(vec![Act::Give(0, num(4)), Act::Give(0, e)], End::Become(1, vec![0], vec![num(0)])), &[1]),
            };
            if begins.is_empty() {
                prog.procs[0].body = b;
            } else {
                prog.procs.push(process(begins, 1, 1, b));
            }
            prog.write()
        }
        // Nesting of ways.
        9..=11 => {
            let mut prog = rounds;
            let offers = which == 10 || (which == 11 && draw.chance(1, 2));
            let total = 256 + past;
            // So many ways, then an expression that takes the rest of the levels.
            let ways = if which == 11 { draw.below(total) } else { total };
            let rest = total - ways;
            let end = || if offers { End::Become(1, vec![0], vec![]) } else { End::Stop };
            let mut b = body(vec![], end());
            if rest > 0 {
                let e = nested(num(1), rest - 1, draw.below(3));
                match draw.below(3) {
                    0 => b = body(vec![Act::Set(0, num(1)), Act::Set(0, e)], end()),
                    1 if rest >= 1 => b = body(vec![], when(e, body(vec![], end()), body(vec![], end()))),
                    _ => b = body(vec![Act::Set(0, e)], end()),
                }
            } else if draw.chance(1, 2) {
                // What needs no level is read at level 0 too.
                b.acts.push(if offers { Act::Start(1, vec![0], vec![]) } else { Act::Start(2, vec![], vec![]) });
                if draw.chance(1, 4) {
                    // And what does is not.
                    b.acts.push(Act::Set(0, num(1)));
                }
                if offers {
                    b.acts.clear();
                }
            }
            let left = draw.below(3);
            for i in 0..ways {
                let other = body(vec![], end());
                let first = left == 0 || (left == 2 && i % 2 == 0);
                let (s, t) = if first { (b, other) } else { (other, b) };
                b = body(vec![], if offers { offer(0, s, t) } else { when(num(1), s, t) });
            }
            if offers {
                prog.procs.push(process(&[3], 0, 1, b));
            } else {
                prog.procs[0].body = b;
                prog.procs.push(process(&[0], 0, 1, stop()));
                prog.procs.push(process(&[0], 0, 1, stop()));
            }
            prog.write()
        }
        // Lengths that are larger than the words that are left.
        12 => vec![[u32::MAX, u32::MAX - 1, 257, 1 << 31][draw.below(4)], 0, 0, 0, 0, 0],
        13 => {
            let mut row = rounds.write();
            row.extend([[u32::MAX, 1 << 31, 17, 16][draw.below(4)], 0, 0, 0]);
            row
        }
        14 => {
            // become 0, with a list of conversations that goes to the end, or one further, or far.
            let mut row = vec![0, 0, 0, 0, 9, 0];
            let long = draw.below(6);
            row.push(if past == 0 { long as u32 } else { [long as u32 + 2, u32::MAX, u32::MAX - 7, 1 << 30][draw.below(4)] });
            row.extend(vec![0; long]);
            row.push(0);
            row
        }
        15 => {
            let mut row = vec![0, 0, 0, 0, [8, 9][draw.below(2)], 0, 0];
            row.push([u32::MAX, 1 << 31, 1, 2, 3, 4][draw.below(6)]);
            for _ in 0..draw.below(8) {
                row.push(0);
            }
            row
        }
        // Long lists: careless, not no program.
        16 => {
            let mut prog = rounds;
            let long = [16, 17, 100, 5000, 15_000][draw.below(5)];
            let cs: Vec<u32> = (0..long).map(|i| if draw.chance(1, 2) { i } else { 0 }).collect();
            let start = draw.chance(1, 2);
            prog.procs.push(process(&vec![0; 16], 0, 1, stop()));
            prog.procs[0].body = if start {
                body(vec![Act::Start(1, cs, vec![])], End::Stop)
            } else {
                body(vec![], End::Become(draw.below(2) as u32, cs, vec![]))
            };
            prog.write()
        }
        17 => {
            let mut prog = rounds;
            let long = [16, 17, 100, 5000][draw.below(4)];
            let es: Vec<Exp> = (0..long).map(num).collect();
            prog.procs.push(process(&[0], 16, 16, stop()));
            prog.procs[0].body = body(vec![Act::Start(1, vec![], es)], End::Stop);
            prog.write()
        }
        // A process with all sixteen of everything, handed on and on.
        18 => {
            let mut prog = rounds;
            let es: Vec<Exp> = (0..16).map(|x| add(var(x), num(x))).collect();
            let mut cs: Vec<u32> = (0..16).collect();
            for i in (1..16).rev() {
                cs.swap(i, draw.below(i + 1));
            }
            cs.truncate(16 - past);
            prog.procs.push(process(&[1; 16], 16, 16, body(vec![], End::Become(1, cs, es))));
            let one = process(&[0], 0, 0, stop());
            prog.procs.push(one);
            prog.write()
        }
        // Whole programs one after the other, and nothing at all.
        _ => match draw.below(4) {
            0 => vec![],
            1 => vec![0],
            2 => vec![0, 0, 0, 0, 0],
            _ => {
                let mut row = keeper(draw).write();
                row.extend(keeper(draw).write());
                row
            }
        },
    }
}

// Speed.

/// A measure of how fast this is, for a first idea.
pub fn speed(out: &mut dyn std::io::Write) -> std::io::Result<()> {
    use std::hint::black_box;
    use std::time::Instant;
    let mut draw = Draw(1);
    let mut rows = Vec::new();
    while rows.len() < 300 {
        let row = Maker::make(&mut draw).write();
        if row.len() <= crate::MOST_WORDS {
            rows.push(row);
        }
    }
    let words: usize = rows.iter().map(Vec::len).sum();
    let began = Instant::now();
    let mut times = 0;
    while began.elapsed().as_millis() < 500 {
        for row in &rows {
            black_box(crate::judge(black_box(row)));
        }
        times += 1;
    }
    let rate = (words * times) as f64 / began.elapsed().as_secs_f64() / 1e6;
    writeln!(out, "judge, {} programs of {} words on average: {rate:.0} million words a second", rows.len(), words / rows.len())?;
    for (name, row) in
        [("long", limit_row(&mut draw, 0, 0)), ("nested", limit_row(&mut draw, 9, 0)), ("deep", limit_row(&mut draw, 7, 0))]
    {
        let began = Instant::now();
        let mut times = 0;
        while began.elapsed().as_millis() < 200 {
            black_box(crate::judge(black_box(&row)));
            times += 1;
        }
        let rate = (row.len() * times) as f64 / began.elapsed().as_secs_f64() / 1e6;
        writeln!(out, "judge, {name}, {} words: {rate:.0} million words a second", row.len())?;
    }
    let mut runner = crate::Runner::new();
    let mut shown = [0u32; 16];
    for (name, prog, turns, steps) in [
        // if, choose/offer, give/take, become, become for each round
        ("counter", counter(3_000_000, 0), u32::MAX, 3_000_000u64 * 5),
        // 2^20 workers
        ("tree", tree(20), 100, (1u64 << 20) * 11),
        ("arithmetic", arithmetic(2_000_000), u32::MAX, 2_000_000 * 6),
        ("starts", starts(2_000_000), u32::MAX, 2_000_000 * 6),
    ] {
        let row = prog.write();
        let Some(program) = crate::read(&row).and_then(crate::Kept::of) else { continue };
        let began = Instant::now();
        let ended = runner.run_into(&program, u32::MAX, turns, &mut shown, None);
        let took = began.elapsed().as_secs_f64();
        let rate = steps as f64 / took / 1e6;
        writeln!(out, "run, {name}: {ended:?} {}, {took:.3} s, about {rate:.0} million steps a second", shown[0])?;
    }
    Ok(())
}

/// A loop of arithmetic, in one process.
pub fn arithmetic(n: u32) -> Prog {
    Prog {
        points: vec![pt(1, 1, 0), pt(0, 0, 0), pt(2, 1, 0)],
        others: vec![2, 1, 0],
        procs: vec![
            process(&[], 0, 1, body(
                vec![Act::Start(1, vec![], vec![num(n), num(1)]), Act::Take(0, 0), Act::Show(var(0))],
                End::Stop,
            )),
            process(&[0], 2, 4, body(vec![], when(
                var(0),
                body(
                    vec![
                        Act::Set(2, add(op(4, var(1), num(1_664_525)), num(1_013_904_223))),
                        Act::Set(3, op(5, var(2), num(1 << 31))),
                        Act::Set(1, add(var(2), op(4, var(3), sub(var(1), num(7))))),
                        Act::Set(3, add(var(1), var(2))),
                    ],
                    End::Become(1, vec![0], vec![sub(var(0), num(1)), var(1)]),
                ),
                body(vec![Act::Give(0, var(1))], End::Stop),
            ))),
        ],
    }
}

/// A process that starts a helper for each round, asks it something and lets it go.
pub fn starts(n: u32) -> Prog {
    Prog {
        points: vec![pt(1, 1, 0), pt(0, 0, 0), pt(2, 1, 0)],
        others: vec![2, 1, 0],
        procs: vec![
            process(&[], 0, 1, body(
                vec![Act::Start(1, vec![], vec![num(n), num(1)]), Act::Take(0, 0), Act::Show(var(0))],
                End::Stop,
            )),
            process(&[0], 2, 2, body(vec![], when(
                var(0),
                body(
                    vec![Act::Start(2, vec![], vec![var(1)]), Act::Take(1, 1)],
                    End::Become(1, vec![0], vec![sub(var(0), num(1)), var(1)]),
                ),
                body(vec![Act::Give(0, var(1))], End::Stop),
            ))),
            process(&[0], 1, 1, body(vec![Act::Give(0, add(op(4, var(0), num(3)), num(1)))], End::Stop)),
        ],
    }
}
