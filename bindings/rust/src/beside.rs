//! The calls that stand beside the groups, the pool's and set-up, written down as the program `replay` reads them.

use crate::setup::{raw, SetUp};
use crate::trace::{cut, file, Hex, Sink};
use crate::{Books, Due, Refusal, SetUpRefusal, Settings};
use alloc::boxed::Box;
use alloc::string::String;
use core::fmt::Write;
use core::sync::atomic::{AtomicU8, Ordering};
use std::sync::{Mutex, PoisonError};

/// Nobody has looked yet whether the environment names a file; nobody is told; somebody is.
const UNASKED: u8 = 0;
const OFF: u8 = 1;
const ON: u8 = 2;
static STATE: AtomicU8 = AtomicU8::new(UNASKED);
static BESIDE: Mutex<Option<Beside>> = Mutex::new(None);

/// Writes the calls that stand beside the groups down from now on: the pool's ([`Books`]) and [`set_up`](crate::set_up), of every thread.
/// Each call is a line, and its answer a line behind `#> `; books and settings that are not what the last call left are laid in before it.
///
/// The variable `FORDLINNET_TRACE` does the same to every program: these calls are in the file with the number 0.
///
/// ```
/// use fordlinnet::{trace_beside, Books};
/// use std::sync::{Arc, Mutex};
///
/// let lines = Arc::new(Mutex::new(Vec::new()));
/// let kept = lines.clone();
/// trace_beside(move |line| kept.lock().unwrap().push(line.to_string()));
/// let mut books = Books::free();
/// books.take(4)?;
/// books.take(4)?;
/// assert_eq!(*lines.lock().unwrap(), ["take 4", "#> take 0", "take 4", "#> take 4"]);
/// # Ok::<(), fordlinnet::Refusal>(())
/// ```
pub fn trace_beside(line: impl FnMut(&str) + Send + Sync + 'static) {
    *BESIDE.lock().unwrap_or_else(PoisonError::into_inner) = Some(Beside::to(Box::new(line)));
    STATE.store(ON, Ordering::Release);
}

/// Who is told, and what the replay would have by now.
struct Beside {
    sink: Sink,
    books: [u8; 64],
    settings: String,
}

fn tell(tell: impl FnOnce(&mut Beside)) {
    if STATE.load(Ordering::Acquire) == OFF {
        return;
    }
    // one call at a time: its lines stand together
    let mut beside = BESIDE.lock().unwrap_or_else(PoisonError::into_inner);
    if STATE.load(Ordering::Acquire) == UNASKED {
        *beside = file(0).map(Beside::to);
        STATE.store(if beside.is_some() { ON } else { OFF }, Ordering::Release);
    }
    if let Some(beside) = beside.as_mut() {
        tell(beside);
    }
}

impl Beside {
    fn to(sink: Sink) -> Beside {
        Beside { sink, books: [0; 64], settings: words(&Settings::default()) }
    }

    fn said(&mut self, line: &str, answer: &str) {
        (self.sink)(line);
        (self.sink)(&alloc::format!("#> {answer}"));
    }

    /// Books that are not what the last call left are laid in.
    fn lent(&mut self, books: &Books) {
        if self.books != *books.sizes() {
            self.books = *books.sizes();
            if self.books == [0; 64] {
                self.said("pool", "pool");
            } else {
                let line = alloc::format!("books {}", Hex(&self.books));
                self.said(&line, "books");
            }
        }
    }
}

fn refused_or(answer: &Result<u32, Refusal>, word: impl FnOnce(u32) -> String) -> String {
    match answer {
        Ok(start) => word(*start),
        Err(refusal) => alloc::format!("refused {}", refusal.number()),
    }
}

pub(crate) fn took(before: &Books, units: u32, answer: &Result<u32, Refusal>, after: &Books) {
    tell(|beside| {
        beside.lent(before);
        beside.said(&alloc::format!("take {units}"), &refused_or(answer, |start| alloc::format!("take {start}")));
        beside.books = *after.sizes();
    });
}

pub(crate) fn gave_back(before: &Books, start: u32, units: u32, answer: &Result<u32, Refusal>, after: &Books) {
    tell(|beside| {
        beside.lent(before);
        beside.said(&alloc::format!("return {start} {units}"), &refused_or(answer, |_| "return".into()));
        beside.books = *after.sizes();
    });
}

/// The words of a `settings` line.
fn words(settings: &Settings) -> String {
    let s = raw(settings);
    let prefixes = &s.prefixes[..s.prefixes.iter().rposition(|&byte| byte != 0).map_or(0, |last| last + 1)];
    let mut words = alloc::format!("{} {} {} {} {}", s.size, Hex(&s.peer), Hex(&s.gid), Hex(&s.mac), Hex(&s.mask));
    let _ = write!(words, " {} {} {} {}", s.masklen, s.count, Hex(prefixes), u8::from(s.first));
    let _ = write!(words, " {} {} {} {} {} {} {} {}", s.qp, s.mtu, s.psn, s.key, s.base, s.slot, s.own, s.link);
    for (key, base) in [(s.key1, s.base1), (s.key2, s.base2), (s.key3, s.base3), (s.key4, s.base4)] {
        let _ = write!(words, " {key} {base}");
    }
    words
}

pub(crate) fn set_up(settings: &Settings, due: Due, bytes: &[u8], answer: &Result<SetUp, SetUpRefusal>) {
    tell(|beside| {
        let words = words(settings);
        if beside.settings != words {
            beside.said(&alloc::format!("settings {words}"), "settings");
            beside.settings = words;
        }
        let due = match due {
            Due::Nothing => "none",
            Due::Proposal => "Proposal",
            Due::Accept => "Accept",
            Due::Confirm => "Confirm",
        };
        let answer = match answer {
            Ok(up) => {
                let mut list = String::new();
                if let Some((slot, o)) = &up.open {
                    let _ = write!(list, "{slot},{},{},{},{},{}", o.own, o.peer, o.link, o.remote.size, o.remote.index);
                    for rtoken in o.remote.rtokens {
                        let _ = write!(list, ",{},{}", rtoken.key, rtoken.base);
                    }
                }
                let open = if list.is_empty() { "-" } else { &list };
                let decline = up.diagnosis.map_or("-".into(), |diagnosis| alloc::format!("{diagnosis}"));
                alloc::format!("setup message {} open {open} decline {decline}", Hex(&up.message))
            }
            Err(refusal) => alloc::format!("refused {}", refusal.number()),
        };
        beside.said(&alloc::format!("setup {due} {}", cut(bytes)), &answer);
    });
}
