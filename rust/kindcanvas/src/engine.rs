//! The proved functions, on lent words.

use crate::refusal::Refusal;
use std::fmt;
use std::thread;

extern "C" {
    /// Reads `len` words from `program` on and keeps nothing. 0: accepted, else number * 2^32 + place.
    fn kindcanvas_check(program: *const u32, len: usize) -> u64;

    /// Reads the program, writes output, scratch and the first eight of the numbers, and keeps nothing. Says how many
    /// numbers it wrote: 8, or 0, with nothing read or written, if fewer are lent.
    fn kindcanvas_run(
        program: *const u32,
        program_len: usize,
        rounds: u32,
        steps: u32,
        output: *mut u32,
        output_len: usize,
        scratch: *mut u32,
        scratch_len: usize,
        numbers: *mut u32,
        numbers_len: usize,
    ) -> u32;

    /// Looks at headers of the page's answers, writes where the wanted one begins and ends, and keeps nothing. 0: found,
    /// else the refusal's number, with both at its place.
    fn kindcanvas_view(
        page: *const u32,
        page_len: usize,
        answer: u32,
        start: *mut usize,
        end: *mut usize,
    ) -> u32;
}

/// The words of scratch that a run needs. Of a longer scratch it uses only the first so many.
pub const SCRATCH_WORDS: usize = 12_288;
/// The words of output that a run can use.
pub const USABLE_WORDS: usize = (1 << 28) - 1;

/// A program of so many words needs less than 1 MiB of stack, however deep its goals are nested.
const SHORT_PROGRAM: usize = 4_096;
/// The longest programs need up to 4 MiB, more than a thread usually has.
const STACK: usize = 8 << 20;

/// How a run ended.
#[derive(Clone, Copy, Debug, PartialEq, Eq, Hash)]
pub enum Ending {
    /// A round was completed without a cut: there is nothing more to find.
    Finished,
    /// The last round allowed was completed, and it cut some branch.
    Rounds,
    /// The next step would have exceeded the step limit.
    Steps,
    /// An answer did not fit into what was left of the output.
    Output,
    /// The next step would have exceeded a bound on one path. No limit moves these bounds.
    Path(Bound),
}

/// A bound on what one path may have.
#[derive(Clone, Copy, Debug, PartialEq, Eq, Hash)]
pub enum Bound {
    /// 2,048 variables.
    Variables = 1,
    /// 1,024 goals put to wait, taken ones too.
    Goals = 2,
    /// 256 disjunctions with alternatives left.
    Disjunctions = 3,
    /// 512 constraints.
    Constraints = 4,
    /// 512 waiting term pairs, or as many waiting nodes.
    Waiting = 5,
}

/// How a run ended, with its counts.
#[derive(Clone, Copy, Debug, PartialEq, Eq)]
pub struct Report {
    /// How it ended.
    pub end: Ending,
    /// The last round completed if it ended as finished or with its rounds used up, else the one broken off.
    pub round: u32,
    /// The steps taken in all rounds.
    pub steps: u32,
    /// The answers written: none has the same words as an earlier one.
    pub answers: u32,
    /// The output words used.
    pub words: usize,
    /// How many branches were left open: those cut in the last completed round, because they ask for more calls than its
    /// number. 0 if none was completed. It is 0 when a run is finished, and more than 0 when its rounds are used up.
    pub cut: u32,
}

impl Bound {
    /// All five, in the order of their numbers.
    pub const ALL: [Bound; 5] = [
        Bound::Variables,
        Bound::Goals,
        Bound::Disjunctions,
        Bound::Constraints,
        Bound::Waiting,
    ];

    /// Its number, 1 to 5.
    pub fn number(self) -> u32 {
        self as u32
    }

    /// How many a path may have.
    pub fn most(self) -> u32 {
        match self {
            Bound::Variables => 2_048,
            Bound::Goals => 1_024,
            Bound::Disjunctions => 256,
            Bound::Constraints | Bound::Waiting => 512,
        }
    }
}

/// What is counted, in words.
impl fmt::Display for Bound {
    fn fmt(&self, f: &mut fmt::Formatter) -> fmt::Result {
        f.write_str(match self {
            Bound::Variables => "variables",
            Bound::Goals => "goals put to wait",
            Bound::Disjunctions => "disjunctions with alternatives left",
            Bound::Constraints => "constraints",
            Bound::Waiting => "second parts of pairs waiting",
        })
    }
}

impl Report {
    /// The last round completed: the answers show all that the relations give with so many calls or fewer. None if the
    /// run broke off in round 0.
    pub fn completed(&self) -> Option<u32> {
        match self.end {
            Ending::Finished | Ending::Rounds => Some(self.round),
            Ending::Steps | Ending::Output | Ending::Path(_) => self.round.checked_sub(1),
        }
    }
}

/// Makes a call of the engine with stack enough for a program of so many words.
fn with_stack<T: Send>(words: usize, call: impl FnOnce() -> T + Send) -> T {
    if words <= SHORT_PROGRAM {
        return call();
    }
    thread::scope(|scope| {
        let thread = thread::Builder::new()
            .stack_size(STACK)
            .spawn_scoped(scope, call);
        match thread {
            Ok(thread) => thread.join().expect("the engine doesn't panic"),
            Err(error) => panic!(
                "a program of {words} words needs a thread with 8 MiB of stack, and none could be made: {error}"
            ),
        }
    })
}

/// Checks that the words are a program.
///
/// # Panics
///
/// If there are more than 4,096 words and no thread can be made for them, as [the crate's page](crate#stack) says.
pub fn check(words: &[u32]) -> Result<(), Refusal> {
    let result = with_stack(words.len(), || {
        // SAFETY: the pointer and the length are those of a slice, which is only read and only during the call.
        unsafe { kindcanvas_check(words.as_ptr(), words.len()) }
    });
    match result {
        0 => Ok(()),
        _ => Err(Refusal {
            number: (result >> 32) as u32,
            place: result as u32 as usize,
        }),
    }
}

/// Runs the program through its rounds. Answers go to `output`, one after the other, with zeros behind them. One with the same
/// words as an earlier one is not written, but the run ends as output full if it would not fit. Repeats are found fast while
/// `output` has words to spare, four an answer; in one that gets full each answer is compared with all before it. Of `scratch` the
/// first [`SCRATCH_WORDS`] are 0 afterwards; those beyond stay as lent. A refusal leaves both as lent.
///
/// ```
/// let program = kindcanvas::words::parse("13:5 2:1 2:1 5:2 0:0 1:7")?;
/// let mut output = [9; 4];
/// let mut scratch = vec![9; kindcanvas::SCRATCH_WORDS + 1];
/// let report = kindcanvas::run(&program, 16, 1_000_000, &mut output, &mut scratch).unwrap();
/// assert_eq!((report.steps, report.answers, report.words), (4, 1, 2));
/// assert_eq!(kindcanvas::words::show(&output), "15:1 1:7 0:0 0:0");
/// let (used, beyond) = scratch.split_at(kindcanvas::SCRATCH_WORDS);
/// assert!(used.iter().all(|&word| word == 0) && beyond == [9]);
/// # Ok::<(), kindcanvas::words::TextError>(())
/// ```
///
/// # Panics
///
/// If the program has more than 4,096 words and no thread can be made for it, as [the crate's page](crate#stack) says.
pub fn run(
    program: &[u32],
    rounds: u32,
    steps: u32,
    output: &mut [u32],
    scratch: &mut [u32],
) -> Result<Report, Refusal> {
    let mut numbers = [0; 8];
    let written = call(program, rounds, steps, output, scratch, &mut numbers);
    assert_eq!(written, 8, "eight numbers are enough");
    let [end, which, place, round, steps, answers, words, cut] = numbers;
    let end = match end {
        0 => Ending::Finished,
        1 => Ending::Rounds,
        2 => Ending::Steps,
        3 => Ending::Output,
        4 => Ending::Path(Bound::ALL[which as usize - 1]),
        _ => {
            return Err(Refusal {
                number: which,
                place: place as usize,
            })
        }
    };
    Ok(Report {
        end,
        round,
        steps,
        answers,
        words: words as usize,
        cut,
    })
}

/// The words of one answer, numbered from 0, as a part of the page itself: its header `15:n` and n words. The page is walked by
/// the headers of its answers. Nothing inside an answer is looked at, and nothing behind the wanted one.
///
/// A page that has no whole answer of that number is refused by 10, at the word where the walk stopped: the page's length, a
/// word that is no header, or the header of an answer that overruns the page.
///
/// ```
/// let page = kindcanvas::words::parse("15:1 1:7 15:2 4:9 15:9 0:0")?;
/// assert_eq!(kindcanvas::view(&page, 1), Ok(&page[2..5]));
///
/// let refusal = kindcanvas::view(&page, 2).unwrap_err();
/// assert_eq!((refusal.number, refusal.place), (10, 5));
/// assert_eq!(refusal.to_string(), "the page has no whole answer of this number: the walk over its headers stopped at word 5");
/// # Ok::<(), kindcanvas::words::TextError>(())
/// ```
pub fn view(page: &[u32], answer: u32) -> Result<&[u32], Refusal> {
    let (mut start, mut end) = (0, 0);
    // SAFETY: the page's pointer and length are those of a slice, which is only read; the two numbers are this function's own.
    // All are used only during the call.
    let number =
        unsafe { kindcanvas_view(page.as_ptr(), page.len(), answer, &mut start, &mut end) };
    match number {
        0 => Ok(&page[start..end]),
        _ => Err(Refusal {
            number,
            place: start,
        }),
    }
}

/// The exported function on slices: how many numbers it wrote.
fn call(
    program: &[u32],
    rounds: u32,
    steps: u32,
    output: &mut [u32],
    scratch: &mut [u32],
    numbers: &mut [u32],
) -> u32 {
    with_stack(program.len(), || {
        // SAFETY: pointers and lengths are those of slices, used only during the call; none that is written overlaps
        // another.
        unsafe {
            kindcanvas_run(
                program.as_ptr(),
                program.len(),
                rounds,
                steps,
                output.as_mut_ptr(),
                output.len(),
                scratch.as_mut_ptr(),
                scratch.len(),
                numbers.as_mut_ptr(),
                numbers.len(),
            )
        }
    })
}

#[cfg(test)]
mod tests {
    use super::*;

    #[test]
    fn too_few_numbers() {
        let program = words::parse("13:5 2:1 2:1 5:2 0:0 1:7").unwrap();
        let (mut output, mut scratch, mut numbers) = ([7; 10], vec![8; SCRATCH_WORDS], [9; 7]);
        let written = call(
            &program,
            16,
            1_000_000,
            &mut output,
            &mut scratch,
            &mut numbers,
        );
        assert_eq!(written, 0);
        assert_eq!((output, numbers), ([7; 10], [9; 7]));
        assert!(scratch.iter().all(|&word| word == 8));
    }

    #[test]
    fn bounds_are_numbered_in_order() {
        assert_eq!(Bound::ALL.map(Bound::number), [1, 2, 3, 4, 5]);
    }
}
