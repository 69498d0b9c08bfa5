//! One answer of a page in text. The walk over the page looks at nothing inside an answer, so it is shown as words, like a line of
//! `./list`.

use kindcanvas::words::{self, Source, TextError};
use kindcanvas::{view, Refusal};

/// The words of the answer of this number, from 0, as text, or why the page has none.
pub fn answer(page: &str, number: u32) -> Result<String, String> {
    let source = parse(page).map_err(|error| error.to_string())?;
    match view(&source.words, number) {
        Ok(answer) => Ok(words::show(answer)),
        Err(refusal) => Err(explain(&source, refusal)),
    }
}

/// The page's words, with their places. A list's first line, `end ..` or `refused ..`, has none.
fn parse(page: &str) -> Result<Source, TextError> {
    let (first, rest) = page.split_at(page.find('\n').unwrap_or(page.len()));
    let of_list = first.starts_with("end ") || first.starts_with("refused ");
    match of_list && !first.contains(':') {
        true => Source::without_names(rest),
        false => Source::without_names(page),
    }
}

/// The refusal with its place in the text, and which case it is.
fn explain(source: &Source, refusal: Refusal) -> String {
    let Refusal { number, place: at } = refusal;
    let (place, case) = match source.places.get(at) {
        None => (
            "the end of the page".to_string(),
            "its answers end there".to_string(),
        ),
        Some(place) => {
            let word = words::show(&source.words[at..=at]);
            let left = source.words.len() - at - 1;
            let case = match word.strip_prefix("15:") {
                Some(count) => format!("{word} has only {left} of its {count} words on the page"),
                None => format!("{word} is no answer's header"),
            };
            (place.to_string(), case)
        }
    };
    format!("refused {number} at {at}: {refusal} ({place}): {case}")
}
