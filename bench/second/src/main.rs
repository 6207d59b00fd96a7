//! `second`: judge, run, jam and generate. Programs are lines of decimal words on standard input.

use second::orders::{self, Came};
use second::rows;
use std::io::{self, BufRead, BufWriter, Write};

const USE: &str = "use:
  second judge
  second run --processes N --turns T --room K [--seed S] [--steps L] [--work W]
  second jam --processes N --turns T --orders M --seed S [--steps L]
  second generate --seed S --count N [--kinds]
  second speed";

fn main() {
    let arguments: Vec<String> = std::env::args().skip(1).collect();
    let result = match arguments.first().map(String::as_str) {
        Some("judge") if arguments.len() == 1 => judge(),
        Some("run") => run(&arguments[1..]),
        Some("jam") => jam(&arguments[1..]),
        Some("generate") => generate(&arguments[1..]),
        Some("speed") if arguments.len() == 1 => speed(),
        _ => Err(wrong("no such mode")),
    };
    if let Err(error) = result {
        if error.kind() == io::ErrorKind::BrokenPipe {
            return;
        }
        eprintln!("{error}\n{USE}");
        std::process::exit(2);
    }
}

fn wrong(what: &str) -> io::Error {
    io::Error::new(io::ErrorKind::InvalidInput, what)
}

/// The values of the named options, each a number at most `most`.
fn options<const N: usize>(arguments: &[String], names: [(&str, u64); N]) -> io::Result<[Option<u64>; N]> {
    let mut values = [None; N];
    let mut rest = arguments.iter();
    while let Some(name) = rest.next() {
        let Some(i) = names.iter().position(|n| n.0 == name) else {
            return Err(wrong(&format!("no such option: {name}")));
        };
        let value = rest.next().and_then(|v| v.parse::<u64>().ok()).filter(|&v| v <= names[i].1);
        values[i] = Some(value.ok_or_else(|| wrong(&format!("{name} wants a number")))?);
    }
    Ok(values)
}

/// Calls `each` with the words of each line of standard input (`None`: they are no words), and writes its answers.
fn lines(mut each: impl FnMut(Option<&[u32]>, &mut dyn Write) -> io::Result<()>) -> io::Result<()> {
    let mut input = io::stdin().lock();
    let mut output = BufWriter::with_capacity(1 << 16, io::stdout().lock());
    let (mut line, mut words) = (Vec::new(), Vec::new());
    loop {
        line.clear();
        if input.read_until(b'\n', &mut line)? == 0 {
            return output.flush();
        }
        let good = rows::words(&line, &mut words).is_some();
        each(good.then_some(&words[..]), &mut output)?;
    }
}

fn judge() -> io::Result<()> {
    lines(|words, output| match words {
        Some(words) => writeln!(output, "{}", second::judge(words)),
        None => writeln!(output, "{}", second::Answer::NoProgram),
    })
}

const WORD: u64 = u32::MAX as u64;
const LONG: u64 = u64::MAX;

fn run(arguments: &[String]) -> io::Result<()> {
    let names =
        [("--processes", WORD), ("--turns", WORD), ("--room", LONG), ("--seed", LONG), ("--steps", LONG), ("--work", LONG)];
    let [Some(most), Some(turns), Some(room), seed, steps, work] = options(arguments, names)? else {
        return Err(wrong("run wants --processes, --turns and --room"));
    };
    let work = work.unwrap_or(LONG);
    // One word that is no program stands for a line that is no words.
    let none = [u32::MAX];
    lines(|words, output| {
        let words = words.unwrap_or(&none);
        let ran = second::go_limited(words, most as u32, turns as u32, room as usize, seed, work, steps);
        writeln!(output, "{ran}")
    })
}

fn jam(arguments: &[String]) -> io::Result<()> {
    let names = [("--processes", WORD), ("--turns", WORD), ("--orders", WORD), ("--seed", LONG), ("--steps", LONG)];
    let [Some(most), Some(turns), Some(count), Some(seed), steps] = options(arguments, names)? else {
        return Err(wrong("jam wants --processes, --turns, --orders and --seed"));
    };
    lines(|words, output| {
        let Some(program) = words.and_then(second::read) else {
            return writeln!(output, "no program");
        };
        let (mut stopped, mut spent, mut many, mut long, mut jams) = (0, 0, 0, 0, 0);
        let mut first = None;
        for order in 0..count {
            let seed = seed.wrapping_add(order);
            match orders::run(&program, most as u32, turns as u32, seed, steps, |_| {}) {
                Came::AllStopped => stopped += 1,
                Came::OutOfTurns => spent += 1,
                Came::TooMany => many += 1,
                Came::TooLong => long += 1,
                Came::Jammed(left) => {
                    jams += 1;
                    first.get_or_insert((seed, left));
                }
            }
        }
        write!(output, "all stopped {stopped}, out of turns {spent}, too many processes {many}, ")?;
        write!(output, "too long {long}, jammed {jams}")?;
        if let Some((seed, left)) = first {
            write!(output, "; seed {seed}:")?;
            for (i, one) in left.iter().take(64).enumerate() {
                write!(output, "{} {one}", if i == 0 { "" } else { ";" })?;
            }
            if left.len() > 64 {
                write!(output, "; and {} more", left.len() - 64)?;
            }
        }
        writeln!(output)
    })
}

fn generate(arguments: &[String]) -> io::Result<()> {
    let kinds = arguments.iter().any(|a| a == "--kinds");
    let rest: Vec<String> = arguments.iter().filter(|a| *a != "--kinds").cloned().collect();
    let [Some(seed), Some(count)] = options(&rest, [("--seed", LONG), ("--count", LONG)])? else {
        return Err(wrong("generate wants --seed and --count"));
    };
    let mut output = BufWriter::with_capacity(1 << 16, io::stdout().lock());
    let mut draw = second::Draw(seed);
    for _ in 0..count {
        let (kind, row) = second::generate::row(&mut draw);
        if kinds {
            write!(output, "{kind}\t")?;
        }
        writeln!(output, "{}", rows::line(&row))?;
    }
    output.flush()
}

fn speed() -> io::Result<()> {
    second::generate::speed(&mut io::stdout().lock())
}
