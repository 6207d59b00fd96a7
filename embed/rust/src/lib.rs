//! Judge and run programs of processes that talk along lines.
//!
//! Safe functions over the static library that `rt lib` in crates/embedding writes. The memory is the caller's: nothing is
//! allocated here or below. The calls take every input, so nothing is tested here either: words that are no program, slices
//! of any length and numbers of any size have an answer.

/// How many work words [`go`] and [`explore`] want for so many processes.
pub const fn work_words(most: u32) -> u64 {
    4096 + 128 * most as u64
}

/// What is said of words.
#[derive(Clone, Copy, Debug, PartialEq, Eq)]
pub enum Judged {
    /// They are a program that keeps to its conversations.
    Keeps,
    /// They are a program that does not.
    Careless,
    /// They are no program.
    NoProgram,
}

/// How a run came out, in the order in which the answers are looked for.
#[derive(Clone, Copy, Debug, PartialEq, Eq)]
pub enum Ran {
    /// There are fewer work words than [`work_words`].
    Few,
    /// The words are no program.
    Unread,
    /// The program does not keep to its conversations.
    Unkept,
    /// There would be more processes than so many.
    Crowded,
    /// More numbers would be shown than there is room for.
    OutFull,
    /// All processes have stopped; so many numbers were shown.
    Done(usize),
    /// Nothing can be done any more, and some process is out of turns; so many numbers were shown.
    Spent(usize),
}

mod c {
    extern "C" {
        pub fn talks_judge(program: *const u32, words: usize) -> u32;
        pub fn talks_go(
            program: *const u32,
            words: usize,
            most: u32,
            turns: u32,
            shown: *mut u32,
            room: usize,
            work: *mut u32,
            work_words: usize,
            count: *mut usize,
        ) -> u32;
        pub fn talks_go_seeded(
            program: *const u32,
            words: usize,
            most: u32,
            turns: u32,
            seed: u64,
            shown: *mut u32,
            room: usize,
            work: *mut u32,
            work_words: usize,
            count: *mut usize,
        ) -> u32;
    }
}

/// Whether the words are a program, and whether it keeps to its conversations.
pub fn judge(program: &[u32]) -> Judged {
    // The library reads the words and nothing else.
    match unsafe { c::talks_judge(program.as_ptr(), program.len()) } {
        0 => Judged::Keeps,
        1 => Judged::Careless,
        _ => Judged::NoProgram,
    }
}

fn ran(code: u32, count: usize) -> Ran {
    match code {
        0 => Ran::Done(count),
        1 => Ran::Spent(count),
        2 => Ran::Crowded,
        3 => Ran::Unkept,
        4 => Ran::Unread,
        5 => Ran::OutFull,
        _ => Ran::Few,
    }
}

/// Runs a program that keeps, with at most `most` processes and `turns` turns, in the fixed order. The numbers that were
/// shown stand first in `shown`, and the rest of it is as it was; a refusal leaves all of it as it was. What `work` holds
/// before does not matter, and what it holds after is not said.
pub fn go(program: &[u32], most: u32, turns: u32, shown: &mut [u32], work: &mut [u32]) -> Ran {
    let mut count = 0;
    // The library reads the words of the program and writes `shown`, `work` and the count, each within its length.
    let code = unsafe {
        c::talks_go(
            program.as_ptr(),
            program.len(),
            most,
            turns,
            shown.as_mut_ptr(),
            shown.len(),
            work.as_mut_ptr(),
            work.len(),
            &mut count,
        )
    };
    ran(code, count)
}

/// The same in an order drawn from a seed, one step at a time.
pub fn go_seeded(program: &[u32], most: u32, turns: u32, seed: u64, shown: &mut [u32], work: &mut [u32]) -> Ran {
    let mut count = 0;
    // As above.
    let code = unsafe {
        c::talks_go_seeded(
            program.as_ptr(),
            program.len(),
            most,
            turns,
            seed,
            shown.as_mut_ptr(),
            shown.len(),
            work.as_mut_ptr(),
            work.len(),
            &mut count,
        )
    };
    ran(code, count)
}
