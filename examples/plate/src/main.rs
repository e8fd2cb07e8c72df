//! Two processes move a file through the proved core: a composer sends it, a plate host receives it, over many connections at once. See
//! README.md.

mod args;
mod bare;
mod composer;
mod draft;
mod end;
mod files;
mod host;
mod links;
mod picture;
mod plan;
mod system;
mod wire;

use args::{Asked, Options, USAGE};
use draft::Drafted;
use end::{Ended, Tried, Trouble};
use files::{Named, Nameless};
use plan::{Board, Count, Mark, Plan, Role, FAILING};
use std::fs;
use std::io::{self, IsTerminal};
use std::os::fd::OwnedFd;
use std::os::unix::net::UnixStream;
use std::os::unix::process::ExitStatusExt;
use std::path::PathBuf;
use std::process::{exit, Child, Command, ExitStatus, Stdio};
use std::sync::atomic::Ordering;
use std::thread;
use std::time::{Duration, Instant};

/// What is moved, and how.
#[derive(Clone, Copy, Debug, PartialEq, Eq)]
enum Way {
    Core,
    Socket,
    Copy,
    /// A draft and a shorter job, with the proved open between them.
    Draft,
    /// The same with an open that does not zero.
    Control,
}

impl Way {
    const ALL: [Way; 5] = [Way::Core, Way::Socket, Way::Copy, Way::Draft, Way::Control];

    fn word(self) -> &'static str {
        match self {
            Way::Core => "core",
            Way::Socket => "socket",
            Way::Copy => "copy",
            Way::Draft => "draft",
            Way::Control => "control",
        }
    }
}

/// Exit status of a process that aborted its connections.
const ABORTED: i32 = 3;

/// A process that this program has started as itself: `as ROLE PARENT WAY PLAN`.
fn process(words: &[String]) -> i32 {
    let role = if words[0] == "composer" { Role::Composer } else { Role::Host };
    if !words[1].parse().is_ok_and(system::end_with) {
        return 2;
    }
    let way = Way::ALL.into_iter().find(|way| way.word() == words[2]);
    let (Some(way), Some(plan)) = (way, Plan::from_words(&words[3..])) else { return 2 };
    let ended = match (way, role) {
        (Way::Core, Role::Composer) => composer::run(&plan),
        (Way::Core, Role::Host) => host::run(&plan),
        (Way::Socket, _) => bare::socket(role, &plan),
        (Way::Copy, _) => bare::copy(role, &plan),
        (Way::Draft | Way::Control, Role::Composer) => draft::composer(&plan),
        (Way::Draft, Role::Host) => draft::host(&plan, true),
        (Way::Control, Role::Host) => draft::host(&plan, false),
    };
    match ended {
        Ok(Ended::InOrder) => 0,
        Ok(Ended::Aborted) => ABORTED,
        Err(trouble) => {
            eprintln!("{}: {trouble}", words[0]);
            1
        }
    }
}

/// A process of our own, which is ended where it is dropped.
struct Started(Child);

impl Started {
    fn new(role: Role, way: Way, plan: &Plan, socket: UnixStream) -> Result<Started, Trouble> {
        let program = std::env::current_exe().tried("find", "this program")?;
        let mut command = Command::new(&program);
        command.arg("as").arg(role.word()).arg(std::process::id().to_string()).arg(way.word()).args(plan.words());
        command.stdin(Stdio::from(OwnedFd::from(socket)));
        Ok(Started(command.spawn().tried("start", program.display())?))
    }

    fn status(&mut self) -> Result<Option<ExitStatus>, Trouble> {
        self.0.try_wait().tried("wait for", "a process that was started")
    }
}

impl Drop for Started {
    fn drop(&mut self) {
        if let Ok(None) = self.0.try_wait() {
            let _ = self.0.kill();
            let _ = self.0.wait();
        }
    }
}

/// What a run left.
struct Run {
    composer: ExitStatus,
    host: ExitStatus,
    seconds: f64,
    /// Of every connection, how many bytes were read.
    read: Vec<usize>,
    /// How both came to their end.
    fates: String,
    messages: [u64; 2],
    updates: u64,
    blocked: u64,
    sleeps: [u64; 2],
    /// Messages with F made and heard.
    failovers: [u64; 2],
}

/// How a process came to its end, if it did.
fn fate(role: Role, status: Option<ExitStatus>) -> String {
    let how = match status.map(|status| (status.signal(), status.code())) {
        None => "was still at work".to_string(),
        Some((Some(signal), _)) => format!("was killed by signal {signal}"),
        Some((_, Some(0))) => "ended in order".to_string(),
        Some((_, Some(ABORTED))) => "aborted and freed every connection that was open".to_string(),
        Some(_) => "failed".to_string(),
    };
    format!("the {} {how}", role.word())
}

/// How both came to their end, the one that was killed first, and after how many bytes.
fn fates(way: Way, plan: &Plan, board: &Board, len: usize, [composer, host]: [Option<ExitStatus>; 2]) -> String {
    let [sent, read] = match way {
        Way::Socket | Way::Copy => [board.get(Mark::Head), board.get(Mark::Tail)],
        _ => board.moved(plan.connections),
    };
    let (mut first, mut second) = (fate(Role::Composer, composer), fate(Role::Host, host));
    if host.is_some_and(|status| status.signal().is_some()) {
        (first, second) = (second, first);
    }
    format!("{first} after {sent} of {len} bytes were sent and {read} were read; {second}")
}

fn bar(read: u64, of: u64, since: Instant, connections: u32) {
    let share = if of == 0 { 1.0 } else { read as f64 / of as f64 };
    let full = (share * 40.0) as usize;
    let rate = read as f64 / since.elapsed().as_secs_f64() / 1e6;
    let line = format!("[{}{}]", "#".repeat(full), ".".repeat(40 - full));
    eprint!("\r{line} {:3.0} %  {rate:6.0} MB/s  {connections} connections ", share * 100.0);
}

/// Starts both processes, lets them begin, shows how far they are, and kills one where that is asked.
fn run(way: Way, plan: &Plan, len: usize, kill: Option<(Role, u64)>) -> Result<Run, Trouble> {
    files::zeros(&plan.shared, plan.shared_bytes())?;
    files::zeros(&plan.output, len)?;
    let map = plan.map_shared()?;
    let board = Board::of(&map);
    let (one, other) = UnixStream::pair().tried("make", wire::SOCKET)?;
    let mut composer = Started::new(Role::Composer, way, plan, one)?;
    let mut host = Started::new(Role::Host, way, plan, other)?;
    let shows = way == Way::Core && io::stderr().is_terminal();
    let total = || board.moved(plan.connections)[1];
    let ready = || board.get(Mark::ComposerReady) + board.get(Mark::HostReady) == 2;
    let (mut statuses, mut since, mut begun, mut killed) = ([None, None], Instant::now(), false, false);
    while statuses.contains(&None) {
        if !begun && ready() {
            begun = true;
            since = Instant::now();
            board.set(Mark::Go, 1);
        }
        if let Some((victim, at)) = kill {
            if !killed && total() * 100 >= at * len as u64 {
                killed = true;
                let victim = if victim == Role::Composer { &mut composer } else { &mut host };
                victim.0.kill().tried("kill", "a process that was started")?;
            }
        }
        if shows && begun {
            bar(total(), len as u64, since, plan.connections);
        }
        thread::sleep(if kill.is_some() || !begun { Duration::from_micros(100) } else { Duration::from_millis(10) });
        if system::stopped() {
            return Err(Trouble::Other(format!("stopped after {} of {len} bytes were read; nothing is left", total())));
        }
        statuses = [composer.status()?, host.status()?];
        // before the beginning, and beside the core, one that fails leaves the other waiting
        if (!begun || way != Way::Core) && statuses.iter().flatten().any(|status| !status.success()) {
            return Err(Trouble::Other(format!("{}: {}", way.word(), fates(way, plan, &board, len, statuses))));
        }
    }
    if shows {
        bar(total(), len as u64, since, plan.connections);
        eprintln!();
    }
    let fates = fates(way, plan, &board, len, statuses);
    let [Some(composer), Some(host)] = statuses else { unreachable!("both have ended") };
    Ok(Run {
        composer,
        host,
        seconds: board.get(Mark::Nanoseconds) as f64 / 1e9,
        read: (1..=plan.connections).map(|slot| board.read(slot).load(Ordering::Acquire) as usize).collect(),
        fates,
        messages: board.counted(Count::Messages),
        updates: board.counted(Count::Updates).iter().sum(),
        blocked: board.counted(Count::Blocked).iter().sum(),
        sleeps: board.counted(Count::Sleeps),
        failovers: [Count::Moved, Count::FailoversHeard].map(|count| board.counted(count).iter().sum()),
    })
}

/// The output against the input, as far as each part was read.
fn same(plan: &Plan, read: impl Fn(u32) -> usize) -> Result<bool, Trouble> {
    let (input, output) = (plan.map_input()?, plan.map_output()?);
    // SAFETY: both processes have ended.
    let (sent, got) = unsafe { (input.bytes(), output.bytes()) };
    Ok((1..=plan.connections).all(|slot| {
        let part = plan.part(slot, input.len());
        let end = part.start + read(slot);
        end <= part.end && sent[part.start..end] == got[part.start..end]
    }))
}

fn check(good: bool, text: &str) -> Result<(), Trouble> {
    if good {
        Ok(())
    } else {
        Err(Trouble::Other(text.to_string()))
    }
}

fn killed(plan: &Plan, len: usize, victim: Role, at: u64) -> Result<(), Trouble> {
    let run = run(Way::Core, plan, len, Some((victim, at)))?;
    let (dead, left) = if victim == Role::Composer { (run.composer, run.host) } else { (run.host, run.composer) };
    let total: usize = run.read.iter().sum();
    check(dead.code().is_none(), "the process ended before it was killed: take a larger file or a higher --pace")?;
    check(left.code() == Some(ABORTED), &run.fates)?;
    check(total < len, "the whole file was read")?;
    check(same(plan, |slot| run.read[slot as usize - 1])?, &format!("what was read is no prefix: {}", run.fates))?;
    println!("{}", run.fates);
    println!("{total} of {len} bytes were read: of each of {} parts a prefix", plan.connections);
    Ok(())
}

fn work(o: &Options) -> Result<(), Trouble> {
    let named = o.out.as_ref().map(|out| Named::new(out, o.file.as_deref())).transpose()?;
    let made = Nameless::new()?;
    let input = match &o.file {
        Some(file) => {
            check(fs::metadata(file).tried("look at", file.display())?.is_file(), &format!("{} is no plain file", file.display()))?;
            file.clone()
        }
        None => {
            files::made_up(&made.path, o.size)?;
            made.path.clone()
        }
    };
    let len = fs::metadata(&input).tried("look at", input.display())?.len() as usize;
    let (shared, nameless) = (Nameless::new()?, Nameless::new()?);
    let output = named.as_ref().map_or(&nameless.path, |named| &named.part).clone();
    let failover = o.failover.then_some(o.at);
    let plan = Plan { shared: shared.path.clone(), input, output, connections: o.connections, element: o.element, pace: o.pace, failover };
    if let Some(victim) = o.kill {
        // an aborted job is no plate: it takes no name
        return killed(&plan, len, victim, o.at);
    }
    let ways = &Way::ALL[..if o.alone { 1 } else { 3 }];
    let mut best = [f64::MAX; 3];
    for round in 0..o.rounds {
        // the core is last, so that what it left is the output
        for &way in ways.iter().rev() {
            let run = run(way, &plan, len, None)?;
            check(run.composer.success() && run.host.success(), &format!("{}: {}", way.word(), run.fates))?;
            check(same(&plan, |slot| plan.part(slot, len).len())?, &format!("{}: another file arrived", way.word()))?;
            best[way as usize] = best[way as usize].min(run.seconds);
            if way == Way::Core && round + 1 == o.rounds {
                check(run.read.iter().sum::<usize>() == len, "not every byte was counted")?;
                println!("{len} bytes over {} connections, elements of {} bytes: the same file arrived", plan.connections, plan.element);
                println!("messages: {} of the composer, {} of the host", run.messages[0], run.messages[1]);
                println!("window updates: {}; sends cut short: {}", run.updates, run.blocked);
                println!("sleeps: {} of the composer, {} of the host", run.sleeps[0], run.sleeps[1]);
                if o.failover {
                    let [made, heard] = run.failovers;
                    check(made > 0 && made == heard, "the link went down too late: take a larger file or a lower --at")?;
                    println!("link {FAILING} went down after {} %: {made} messages with F, all heard, none too early", o.at);
                }
                println!("time: {:.4} s", run.seconds);
            }
        }
    }
    let rate = |way: Way| len as f64 / best[way as usize] / 1e6;
    println!("through the core: {:.0} MB/s (the best of {})", rate(Way::Core), o.rounds);
    if !o.alone {
        println!("over a plain Unix socket: {:.0} MB/s", rate(Way::Socket));
        println!("bare copy through shared memory: {:.0} MB/s", rate(Way::Copy));
    }
    named.map_or(Ok(()), Named::place)
}

/// A draft, its elements opened again, and a shorter job: once with the proved open, once with one that does not zero.
fn drafts(o: &Options) -> Result<(), Trouble> {
    let (shared, output) = (Nameless::new()?, Nameless::new()?);
    let (input, failover) = (PathBuf::new(), None);
    let (shared, output) = (&shared.path, &output.path);
    let plan =
        Plan { shared: shared.clone(), input, output: output.clone(), connections: o.connections, element: o.element, pace: 0, failover };
    let mut both = Vec::new();
    for way in [Way::Draft, Way::Control] {
        let run = run(way, &plan, draft::room(&plan), None)?;
        check(run.composer.success() && run.host.success(), &format!("{}: {}", way.word(), run.fates))?;
        let output = plan.map_output()?;
        // SAFETY: both processes have ended.
        both.push(Drafted::of(&plan, unsafe { output.bytes() }));
    }
    print!("{}", draft::summary(&plan, &both[0], &both[1]));
    if let Some(path) = &o.picture {
        fs::write(path, picture::draw(&plan, &both[0], &both[1])).tried("write", path.display())?;
    }
    check(both[0].as_it_should_be(true), "a byte of the draft is in the plate, or the plate is not what was written")?;
    check(both[1].as_it_should_be(false), "the control shows no draft: it shows nothing")
}

fn main() {
    let words: Vec<String> = std::env::args().skip(1).collect();
    if words.first().is_some_and(|word| word == "as") && words.len() > 3 {
        exit(process(&words[1..]));
    }
    let options = match args::options(&words) {
        Ok(Asked::Work(options)) => options,
        Ok(Asked::Help) => {
            println!("{USAGE}");
            return;
        }
        Err(why) => {
            eprintln!("plate: {why}\nplate --help tells how it is used");
            exit(2);
        }
    };
    system::keep_signals();
    if let Err(trouble) = if options.draft { drafts(&options) } else { work(&options) } {
        eprintln!("plate: {trouble}");
        exit(1);
    }
}
