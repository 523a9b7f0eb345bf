//! Compares a checker with the second program on many calls.
//!
//!     compare program PATH FOLDER COUNT [SEED]    runs the program at PATH in folders under FOLDER
//!     compare library PATH COUNT [SEED [CALL..]]  calls a library through the C program at PATH, all calls or those named
//!
//! A library is called on all fixed cases and on COUNT cases that follow from the seed; a program is run on up to COUNT
//! fixed cases, of each number alike, and on COUNT others. With COUNT 0 the small cases are run alone. The second
//! program's answers are held against those that are known from how the cases were made. Prints how often each number
//! was answered; fails if anything differs or a number was never answered.

use compare::case::{Case, Folder};
use compare::folders::of_case;
use compare::library::{self, Call, Library, Request};
use compare::program;
use compare::selection::{by_number, spread, NUMBERS};
use compare::tally::Tally;
use std::env;
use std::io;
use std::path::{Path, PathBuf};
use std::process::exit;
use std::thread;

const THREADS: usize = 2;

fn main() {
    let arguments: Vec<String> = env::args().skip(1).collect();
    let words: Vec<&str> = arguments.iter().map(String::as_str).collect();
    let seed = |words: &[&str]| words.first().map_or(1, |seed| number(seed));
    let tally = match &words[..] {
        ["program", path, folder, count, rest @ ..] if rest.len() < 2 => {
            let path = std::fs::canonicalize(path).unwrap_or_else(|error| fail(path, error));
            let folder = PathBuf::from(folder);
            together(number(count), seed(rest), move |share| {
                programs(&path, &folder, share)
            })
        }
        ["library", path, count, rest @ ..] => {
            let path = PathBuf::from(path);
            let calls: Vec<Call> = rest.iter().skip(1).map(|name| named(name)).collect();
            together(number(count), seed(rest), move |share| {
                libraries(&path, &calls, share)
            })
        }
        _ => {
            eprintln!("usage: compare program PATH FOLDER COUNT [SEED]\n       compare library PATH COUNT [SEED [CALL..]]");
            exit(2);
        }
    };
    println!("{tally}");
    if !tally.passes() {
        exit(1);
    }
}

fn number(word: &str) -> u64 {
    word.parse().unwrap_or_else(|error| fail(word, error))
}

/// A call by its name in the library.
fn named(name: &str) -> Call {
    Call::named(name).unwrap_or_else(|| fail(name, "no call"))
}

fn fail(what: &str, error: impl std::fmt::Display) -> ! {
    eprintln!("compare: {what}: {error}");
    exit(2);
}

/// One thread's share of the cases.
struct Share {
    thread: usize,
    count: usize,
    seed: u64,
}

impl Share {
    /// Fixed cases, up to so many of each number, and then those that follow from the seed.
    fn cases(&self, most: usize) -> impl Iterator<Item = Case> {
        let mut fixed = compare::small();
        if self.count > 0 {
            fixed.extend(compare::named());
            let parts = by_number(fixed).into_iter();
            fixed = parts.flat_map(|cases| spread(cases, most)).collect();
        }
        let made = compare::stream(self.seed.wrapping_add(self.thread as u64 * 0x1_0000_0000));
        self.of(fixed).chain(made.take(self.count))
    }

    /// This thread's elements of a list.
    fn of<T>(&self, list: Vec<T>) -> impl Iterator<Item = T> {
        list.into_iter().skip(self.thread).step_by(THREADS)
    }
}

/// Does the work in a few threads and adds up what they found.
fn together(
    count: u64,
    seed: u64,
    work: impl Fn(Share) -> io::Result<Tally> + Send + Clone + 'static,
) -> Tally {
    let threads: Vec<_> = (0..THREADS)
        .map(|thread| {
            let work = work.clone();
            let share = Share {
                thread,
                count: count as usize / THREADS,
                seed,
            };
            thread::spawn(move || work(share))
        })
        .collect();
    let mut all = Tally::default();
    for thread in threads {
        match thread.join().expect("a thread of the comparison ends") {
            Ok(tally) => all.add(tally),
            Err(error) => fail("no comparison", error),
        }
    }
    all
}

fn programs(path: &Path, folder: &Path, share: Share) -> io::Result<Tally> {
    let mut tally = Tally::default();
    let place = folder.join(share.thread.to_string());
    let folders = share.of(spread(compare::folders(share.seed), THREADS * share.count));
    let most = (THREADS * share.count).div_ceil(NUMBERS);
    let cases = share.cases(most).map(|case| of_case(&case));
    for (number, case) in folders.chain(cases).enumerate() {
        if tally.enough() {
            break;
        }
        run(
            path,
            &place.join(number.to_string()),
            &case,
            number,
            &mut tally,
        )?;
    }
    Ok(tally)
}

/// Runs the program once; a folder in which something differs stays.
fn run(
    path: &Path,
    place: &Path,
    case: &Folder,
    number: usize,
    tally: &mut Tally,
) -> io::Result<()> {
    let answer = program::plain(&case.files);
    if case.answer.as_ref().is_some_and(|known| *known != answer) {
        let known = case.answer.as_ref().map(program::line).unwrap_or_default();
        tally.differs(format!(
            "{}: the second program answers {:?}, known is {known:?}",
            case.name,
            program::line(&answer)
        ));
    }
    tally.count(answer.number());
    if let Some(what) = program::compare(path, place, &case.files, number % 2 == 0, &answer)? {
        tally.differs(format!("{}: {what} (in {})", case.name, place.display()));
    }
    Ok(())
}

/// Makes the calls given, or all where none is.
fn libraries(path: &Path, calls: &[Call], share: Share) -> io::Result<Tally> {
    let mut tally = Tally::default();
    let mut library = Library::start(path)?;
    for (number, case) in share.cases(usize::MAX).enumerate() {
        for (i, request) in library::requests(&case, number).iter().enumerate() {
            if tally.enough() {
                break;
            }
            if !calls.is_empty() && !calls.contains(&request.call) {
                continue;
            }
            if let Err(error) = call(&mut library, request, i == 0, &mut tally) {
                tally.differs(format!("{}: no reply, {error}", case.name));
                return Ok(tally);
            }
        }
    }
    if !library.end()? {
        tally.differs("the C program did not end well".to_string());
    }
    Ok(tally)
}

fn call(library: &mut Library, request: &Request, own: bool, tally: &mut Tally) -> io::Result<()> {
    let name = &request.case.name;
    let expected = library::plain(request);
    if let (true, Some(answer)) = (own, &request.case.answer) {
        if let Some(what) = library::difference(&expected, &library::known(request, answer)) {
            tally.differs(format!("{name}: the second program {what}"));
        }
    }
    match request.call {
        Call::Search | Call::Monitor => tally.count(expected.word as u8),
        Call::SignedText => tally.count_signed_text(expected.word),
        Call::Ladder | Call::Sha256 => tally.count_other(),
    }
    if let Some(what) = library::difference(&library.call(request)?, &expected) {
        tally.differs(format!("{name}: {:?} {what}", request.call));
    }
    Ok(())
}
