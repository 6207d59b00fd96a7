//! Section 7: rows, and the limits.

pub const MOST_WORDS: usize = 16_384;
pub const MOST_POINTS: usize = 256;
pub const MOST_PROCESSES: usize = 64;
pub const MOST_CONVERSATIONS: usize = 16;
pub const MOST_VARIABLES: usize = 16;
pub const MOST_NESTING: usize = 256;

/// A point: `kind` is its first word (0 over, 1 gives, 2 takes, 3 chooses, 4 offers), `n` and `m` the points
/// at which it goes on (0 where it has none), `other` the number named as its other side.
#[derive(Clone, Copy, Debug, PartialEq, Eq)]
pub struct Point {
    pub kind: u32,
    pub n: u32,
    pub m: u32,
    pub other: u32,
}

/// A process: where its point numbers and its body stand in the words, and its three counts.
#[derive(Clone, Copy, Debug, PartialEq, Eq)]
pub struct Process {
    pub points: usize,
    pub conversations: usize,
    pub handed: usize,
    pub variables: usize,
    pub body: usize,
}

/// A program that was read. `second[i]`, where an `offer` or an `if` stands at word i, is where its second way begins.
#[derive(Clone, Debug)]
pub struct Program<'a> {
    pub(crate) words: &'a [u32],
    pub(crate) points: Vec<Point>,
    pub(crate) processes: Vec<Process>,
    pub(crate) second: Vec<u16>,
}

impl<'a> Program<'a> {
    pub fn words(&self) -> &'a [u32] {
        self.words
    }

    pub fn points(&self) -> &[Point] {
        &self.points
    }

    pub fn processes(&self) -> &[Process] {
        &self.processes
    }

    /// The point numbers with which process f begins.
    #[inline]
    pub fn begins(&self, f: &Process) -> &'a [u32] {
        &self.words[f.points..f.points + f.conversations]
    }
}

/// Reads a program; `None` if the words are no program.
pub fn read(words: &[u32]) -> Option<Program<'_>> {
    read_with::<true>(words)
}

/// As `read`; without `WAYS`, `second` stays empty (the judge does not need it).
pub(crate) fn read_with<const WAYS: bool>(words: &[u32]) -> Option<Program<'_>> {
    if words.len() > MOST_WORDS {
        return None;
    }
    let count = *words.first()? as usize;
    if count > MOST_POINTS {
        return None;
    }
    let mut at = 1;
    let mut points = Vec::with_capacity(count);
    for _ in 0..count {
        let kind = *words.get(at)?;
        let (n, m, long) = match kind {
            0 => (0, 0, 1),
            1 | 2 => (*words.get(at + 1)?, 0, 2),
            3 | 4 => (*words.get(at + 1)?, *words.get(at + 2)?, 3),
            _ => return None,
        };
        points.push(Point { kind, n, m, other: 0 });
        at += long;
    }
    if words.len() - at < count {
        return None;
    }
    for point in &mut points {
        point.other = words[at];
        at += 1;
    }
    let mut second = Vec::new();
    if WAYS {
        second.resize(words.len(), 0);
    }
    let mut processes = Vec::with_capacity(8);
    let mut waiting = [Waiting { at: 0, level: 0, new: 0 }; MOST_NESTING];
    while at < words.len() {
        if processes.len() == MOST_PROCESSES {
            return None;
        }
        let conversations = words[at] as usize;
        if conversations > MOST_CONVERSATIONS {
            return None;
        }
        let start = at + 1;
        at = start + conversations;
        let handed = *words.get(at)?;
        let variables = *words.get(at + 1)?;
        if variables as usize > MOST_VARIABLES || handed > variables {
            return None;
        }
        let body = at + 2;
        at = read_body::<WAYS>(words, body, conversations, &mut waiting, &mut second)?;
        processes.push(Process {
            points: start,
            conversations,
            handed: handed as usize,
            variables: variables as usize,
            body,
        });
    }
    Some(Program { words, points, processes, second })
}

/// A second way that is still to be read: whose it is, its levels to go, and the starts on the way to it.
#[derive(Clone, Copy)]
struct Waiting {
    at: u16,
    level: u16,
    new: u16,
}

/// Reads a body from word `at` on, and answers where it ends.
fn read_body<const WAYS: bool>(
    words: &[u32],
    mut at: usize,
    begins: usize,
    waiting: &mut [Waiting; MOST_NESTING],
    second: &mut [u16],
) -> Option<usize> {
    let mut level = MOST_NESTING;
    let mut new = 0;
    let mut depth = 0;
    loop {
        let action = *words.get(at)?;
        // Missing words c, x, k and f need no look of their own: something must follow them.
        match action {
            0 => at += 1,
            1 | 5 => at = read_expression(words, at + 2, level)?,
            2 | 3 => at += 3,
            4 | 6 => {
                if level == 0 {
                    return None;
                }
                let here = at;
                at = if action == 4 { at + 2 } else { read_expression(words, at + 1, level)? };
                level -= 1;
                waiting[depth] = Waiting { at: here as u16, level: level as u16, new: new as u16 };
                depth += 1;
            }
            7 => at = read_expression(words, at + 1, level)?,
            8 | 9 => {
                let cs = *words.get(at + 2)? as usize;
                at += 3;
                if cs > words.len() - at {
                    return None;
                }
                at += cs;
                let es = *words.get(at)? as usize;
                at += 1;
                if es > words.len() - at {
                    return None;
                }
                for _ in 0..es {
                    at = read_expression(words, at, level)?;
                }
                if action == 8 {
                    new += 1;
                    if begins + new > MOST_CONVERSATIONS {
                        return None;
                    }
                }
            }
            _ => return None,
        }
        if action == 0 || action == 9 {
            if depth == 0 {
                return Some(at);
            }
            depth -= 1;
            let way = waiting[depth];
            level = way.level as usize;
            new = way.new as usize;
            if WAYS {
                second[way.at as usize] = at as u16;
            }
        }
    }
}

/// Reads an expression from word `at` on with `level` levels to go, and answers where it ends.
fn read_expression(words: &[u32], mut at: usize, mut level: usize) -> Option<usize> {
    loop {
        if level == 0 {
            return None;
        }
        match *words.get(at)? {
            0 | 1 => {
                return if at + 1 < words.len() { Some(at + 2) } else { None };
            }
            2..=5 => {
                level -= 1;
                at = read_expression(words, at + 1, level)?;
            }
            _ => return None,
        }
    }
}
