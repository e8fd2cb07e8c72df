//! `model`: the commands.

use std::fs;
use std::io::{self, BufReader, BufWriter, IsTerminal, Read, Write};
use std::process::ExitCode;

use model::pair::{breaks, lists};
use model::{compare, count, generate, pcap, picture, replay, traces};

const USAGE: &str = "\
How the model is used:

model run                                  answer the calls on standard input
model picture                              draw the list on standard input as SVG
model pcap                                 write its messages as a capture (pcapng) for Wireshark
model count                                count what the list on standard input reaches
model generate SEED KIND [COUNT]           write a list of calls: traffic, hostile or exhaust
model generate SEED orders [COUNT] FIRST SECOND [PERMUTATION]
                                           write two allowed orders of one list
model compare PROGRAM SECONDS [SEED]       compare a program with the model for so long
model compare PROGRAM calls COUNT [SEED]   compare a program with the model over so many calls
model pair SECONDS [SEED]                  check what is read over lists of two groups for so long
model pair --break PREMISE                 show what comes out without a premise
model traces DIR                           write DIR/stdin and DIR/stdout
model help                                 print this

Lists are in the replay format: docs/replay-format.md.
";

fn main() -> ExitCode {
    let arguments: Vec<String> = std::env::args().skip(1).collect();
    let words: Vec<&str> = arguments.iter().map(String::as_str).collect();
    match command(&words) {
        Ok(code) => code,
        Err(Failure::Usage(why)) => {
            eprint!("model: {why}\n\n{USAGE}");
            ExitCode::from(2)
        }
        Err(Failure::Io(error)) if error.kind() == io::ErrorKind::BrokenPipe => ExitCode::SUCCESS,
        Err(Failure::Io(error)) => {
            eprintln!("model: {error}");
            ExitCode::from(2)
        }
    }
}

enum Failure {
    /// What is wrong with the words.
    Usage(String),
    Io(io::Error),
}

impl From<io::Error> for Failure {
    fn from(error: io::Error) -> Failure {
        Failure::Io(error)
    }
}

/// A failure for words that are wrong.
fn wrong<T>(why: impl Into<String>) -> Result<T, Failure> {
    Err(Failure::Usage(why.into()))
}

fn command(words: &[&str]) -> Result<ExitCode, Failure> {
    match words {
        ["run"] => {
            say_if_typed();
            let input = BufReader::with_capacity(1 << 16, io::stdin().lock());
            let output = BufWriter::with_capacity(1 << 16, io::stdout().lock());
            replay::run(input, output)?;
            Ok(ExitCode::SUCCESS)
        }
        ["generate", seed, "orders", rest @ ..] => {
            let seed = number(seed)?;
            let (count, files) = match rest.first().map(|word| word.parse::<usize>()) {
                Some(Ok(count)) => (Some(count), &rest[1..]),
                _ => (None, rest),
            };
            let (first, second, third) = match files {
                [first, second] => (*first, *second, format!("{second}.permutation")),
                [first, second, third] => (*first, *second, (*third).to_string()),
                _ => return wrong("orders are written to two files, FIRST and SECOND"),
            };
            let pair = generate::orders::pair(seed, count.unwrap_or(generate::orders::COUNT));
            fs::write(first, &pair.first)?;
            fs::write(second, &pair.second)?;
            fs::write(third, pair.permutation_text())?;
            Ok(ExitCode::SUCCESS)
        }
        ["generate", seed, kind] => generated(number(seed)?, kind, None),
        ["generate", seed, kind, count] => generated(number(seed)?, kind, Some(number(count)?)),
        ["count"] => {
            let table = count::count(&standard_input()?);
            io::stdout().lock().write_all(table.text().as_bytes())?;
            let missing = table.missing();
            for name in &missing {
                eprintln!("never reached: {name}");
            }
            Ok(exit(missing.is_empty()))
        }
        ["compare", program, "calls", count] => {
            let goal = compare::Goal::Calls(number(count)?);
            Ok(exit(compare::compare(program, goal, 1)?))
        }
        ["compare", program, "calls", count, seed] => {
            let goal = compare::Goal::Calls(number(count)?);
            Ok(exit(compare::compare(program, goal, number(seed)?)?))
        }
        ["compare", program, seconds] => {
            let goal = compare::Goal::Seconds(number(seconds)?);
            Ok(exit(compare::compare(program, goal, 1)?))
        }
        ["compare", program, seconds, seed] => {
            let goal = compare::Goal::Seconds(number(seconds)?);
            Ok(exit(compare::compare(program, goal, number(seed)?)?))
        }
        ["pair", "--break", name] => broken(name),
        ["pair", seconds] => paired(number(seconds)?, 1),
        ["pair", seconds, seed] => paired(number(seconds)?, number(seed)?),
        ["picture"] => {
            let svg = picture::picture(&standard_input()?);
            io::stdout().lock().write_all(svg.as_bytes())?;
            Ok(ExitCode::SUCCESS)
        }
        ["help" | "--help" | "-h"] => {
            io::stdout().lock().write_all(USAGE.as_bytes())?;
            Ok(ExitCode::SUCCESS)
        }
        ["pcap"] if io::stdout().is_terminal() => {
            wrong("a capture is no text for a terminal: model pcap < LIST > FILE.pcapng")
        }
        ["pcap"] => {
            let captured = pcap::capture(&standard_input()?);
            io::stdout().lock().write_all(&captured.file)?;
            eprint!("{}", captured.text());
            Ok(ExitCode::SUCCESS)
        }
        ["traces", directory] => {
            traces::write(directory)?;
            Ok(ExitCode::SUCCESS)
        }
        [] => wrong("no command is named"),
        [command, ..] if COMMANDS.contains(command) => {
            wrong(format!("`{command}` does not take these words"))
        }
        [command, ..] => wrong(format!("`{command}` is no command")),
    }
}

const COMMANDS: [&str; 9] = [
    "run", "picture", "pcap", "count", "generate", "compare", "pair", "traces", "help",
];

fn paired(seconds: u64, seed: u64) -> Result<ExitCode, Failure> {
    match lists::run_for(seconds, seed) {
        Ok(counts) => {
            let last = seed + counts.lists - 1;
            let text = format!("seeds {seed} to {last}\n{}", counts.text());
            io::stdout().lock().write_all(text.as_bytes())?;
            Ok(ExitCode::SUCCESS)
        }
        Err(wrong) => {
            eprint!("{wrong}");
            Ok(exit(false))
        }
    }
}

fn broken(name: &str) -> Result<ExitCode, Failure> {
    let Some(found) = breaks::BREAKS.iter().find(|found| found.name == name) else {
        let names: Vec<&str> = breaks::BREAKS.iter().map(|found| found.name).collect();
        return wrong(format!("PREMISE is one of: {}", names.join(", ")));
    };
    let text = breaks::text(found);
    io::stdout().lock().write_all(text.as_bytes())?;
    Ok(ExitCode::SUCCESS)
}

fn generated(seed: u64, kind: &str, count: Option<u64>) -> Result<ExitCode, Failure> {
    let count = count.map(|count| count as usize);
    let text = match kind {
        "traffic" => generate::traffic::list(seed, count.unwrap_or(generate::traffic::COUNT)),
        "hostile" => generate::hostile::list(seed, count),
        "exhaust" => generate::exhaust::list(seed),
        _ => {
            return wrong(format!(
                "`{kind}` is no KIND: traffic, hostile, exhaust or orders"
            ))
        }
    };
    io::stdout().lock().write_all(&text)?;
    Ok(ExitCode::SUCCESS)
}

fn number(word: &str) -> Result<u64, Failure> {
    let why = || Failure::Usage(format!("`{word}` is no number"));
    word.parse().map_err(|_| why())
}

fn standard_input() -> io::Result<Vec<u8>> {
    say_if_typed();
    let mut input = Vec::new();
    io::stdin().lock().read_to_end(&mut input)?;
    Ok(input)
}

/// Who types the list should know that it is waited for.
fn say_if_typed() {
    if io::stdin().is_terminal() {
        eprintln!("model: reads a list from standard input, as from a file: model .. < LIST");
    }
}

fn exit(good: bool) -> ExitCode {
    if good {
        ExitCode::SUCCESS
    } else {
        ExitCode::from(1)
    }
}
