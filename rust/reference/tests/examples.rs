//! The rule files under examples/, what they answer, and the lists beside them.

use reference::listing::listing;
use reference::run::SCRATCH_WORDS;
use reference::table;
use reference::word::show;
use reference::{run, End};
use std::fs;
use std::path::Path;

/// Worked out as each file's comment says: file, round of the end, branches cut (0 if it finished), rounds of the answers, answers.
const EXAMPLES: [(&str, u32, u32, &[u32], &str); 10] = [
    ("abo-rh.kp", 2, 0, &[2, 2], "15:2 1:1 1:5 15:2 1:2 1:5"),
    ("abo.kp", 8, 0, &[4, 6], "15:1 1:1 15:1 1:2"),
    (
        "coded-antigens.kp",
        1,
        0,
        &[1, 1, 1],
        "15:6 1:202 4:1 2:24 4:1 2:27 3:0 15:12 1:203 4:1 2:24 4:1 0:0 3:0 9:2 2:2 0:0 9:2 1:102 0:0 15:6 1:212 4:1 1:2 4:1 1:144 3:0",
    ),
    (
        "endless-chains.kp",
        16,
        9,
        &[5, 9, 11, 13, 15, 15],
        "15:5 4:1 2:2 4:1 2:3 3:0 15:9 4:1 2:2 4:1 2:1 4:1 2:2 4:1 2:3 3:0 15:11 4:1 2:2 4:1 2:3 4:1 2:1 4:1 2:2 4:1 2:3 3:0 15:13 4:1 2:2 4:1 2:1 4:1 2:2 4:1 2:1 4:1 2:2 4:1 2:3 3:0 15:15 4:1 2:2 4:1 2:1 4:1 2:2 4:1 2:3 4:1 2:1 4:1 2:2 4:1 2:3 3:0 15:15 4:1 2:2 4:1 2:3 4:1 2:1 4:1 2:2 4:1 2:1 4:1 2:2 4:1 2:3 3:0",
    ),
    (
        "exchange.kp",
        12,
        0,
        &[10, 12],
        "15:7 4:1 2:1 4:1 2:2 4:1 2:3 3:0 15:7 4:1 2:2 4:1 2:3 4:1 2:1 3:0",
    ),
    (
        "metakanren.kp",
        14,
        0,
        &[11, 14],
        "15:2 1:2 3:0 15:6 1:3 4:1 2:1 4:1 2:2 3:0",
    ),
    (
        "open-typing.kp",
        0,
        0,
        &[0],
        "15:13 4:1 1:24 4:1 0:0 3:0 9:2 1:2 0:0 6:2 0:0 1:107 7:1 0:0",
    ),
    (
        "repeats.kp",
        1,
        0,
        &[1, 1, 1],
        "15:2 2:1 1:2 15:2 2:3 1:24 15:4 2:4 0:0 7:1 0:0",
    ),
    ("shared-typings.kp", 16, 0, &[16], "15:1 1:7"),
    ("unacceptable.kp", 1, 0, &[1, 1], "15:1 2:2 15:1 2:4"),
];

#[test]
fn examples_give_their_answers() {
    let folder = Path::new(env!("CARGO_MANIFEST_DIR")).join("../../examples");
    let mut files: Vec<String> = fs::read_dir(&folder)
        .expect("examples/ at the repository's root")
        .map(|entry| entry.unwrap().file_name().into_string().unwrap())
        .filter(|name| name.ends_with(".kp"))
        .collect();
    files.sort();
    assert_eq!(files, EXAMPLES.map(|(file, ..)| file));
    for (file, round, cut, answer_rounds, answers) in EXAMPLES {
        let words = table::words(&fs::read_to_string(folder.join(file)).unwrap());
        let result = run(&words, 16, 1_000_000, 4_096, SCRATCH_WORDS);
        let list = folder.join(file).with_extension("list");
        assert_eq!(
            listing(&result),
            fs::read_to_string(list).unwrap(),
            "{file}"
        );
        let outcome = result.unwrap_or_else(|refusal| panic!("{file}: {refusal:?}"));
        assert_eq!(show(&outcome.words), answers, "{file}");
        assert_eq!(outcome.answer_rounds, answer_rounds, "{file}");
        let end = if cut == 0 { End::Finished } else { End::Rounds };
        assert_eq!(
            (outcome.end, outcome.round, outcome.cut),
            (end, round, cut),
            "{file}"
        );
    }
}
