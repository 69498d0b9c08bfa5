//! Errors that can be put into a run or a view, to see that a test finds them.

/// Those of a run.
#[derive(Clone, Copy, Debug, PartialEq, Eq)]
pub enum Fault {
    /// A constraint is tested only when taken.
    TestedOnlyWhenTaken,
    /// A variable's other type is looked for under the variable's own name alone, so that x symbolo and y numbero don't
    /// meet when x equals y.
    TypesDontMeet,
    /// A disequality about a variable that no query term holds is kept.
    AbsentDisequalityKept,
    /// Differ of two open variables fails.
    OpenVariablesDontDiffer,
    /// A run is finished once a round gave no answer.
    FinishedWithoutAnswer,
    /// A variable is bound to a term that it occurs in.
    NoOccursCheck,
    /// No call is cut, and every path with no goal waiting gives an answer: a recursion on the left keeps out all else.
    DepthFirst,
    /// A tag matches an atom of its payload, be it a symbol or a number.
    TagOfEitherKind,
    /// An occurs check enters a bound variable each time that it comes there, as before Note 10 of document 02.
    EnteredAgain,
    /// The same, but only in trials.
    EnteredAgainInTrials,
    /// An absento's review enters each bound variable at most one time too.
    AbsenceEntersOnce,
    /// Marked is the first variable on the way to a value that is entered, not the last.
    FirstVariableMarked,
    /// Marked is the value itself, so that two variables bound to one are one.
    ValueMarked,
    /// What an occurs check has marked stays so for the later ones of the same equality or trial.
    MarksKept,
    /// A second arrival is no step.
    SecondArrivalFree,
    /// A second arrival exceeds the bound of waiting nodes if entering the value would.
    SecondArrivalBounded,
    /// Every answer is written, as before Note 2 of document 02.
    RepeatsWritten,
    /// Answers are compared before the output-full test, so that a repeat needs no room.
    ComparedBeforeFull,
    /// An answer is compared with those of its own round alone.
    ComparedInRound,
    /// An answer is compared with the last one written alone.
    ComparedWithLast,
    /// Of two with the same words the earlier one is struck out.
    EarlierStruck,
    /// A repeat takes a step.
    RepeatTakesStep,
    /// A repeat is counted as an answer.
    RepeatCounted,
    /// A repeat's words are taken from those left.
    RepeatTakesRoom,
    /// Answers are compared by their query terms alone, without the constraints.
    ComparedByTerms,
    /// Answers with the same words in another order are the same.
    ComparedInAnyOrder,
    /// All words but the last are compared.
    ComparedButLastWord,
    /// A run is finished once a round gave repeats and no other answer.
    FinishedWithRepeats,
}

impl Fault {
    /// Those that change what answers show. The first five are those of document 01, in its order.
    pub const OF_ANSWERS: [Fault; 8] = [
        Fault::TestedOnlyWhenTaken,
        Fault::TypesDontMeet,
        Fault::AbsentDisequalityKept,
        Fault::OpenVariablesDontDiffer,
        Fault::FinishedWithoutAnswer,
        Fault::NoOccursCheck,
        Fault::DepthFirst,
        Fault::TagOfEitherKind,
    ];

    /// Other readings of Note 10 of document 02, most of which change the steps alone.
    pub const OF_CHECKS: [Fault; 8] = [
        Fault::EnteredAgain,
        Fault::EnteredAgainInTrials,
        Fault::AbsenceEntersOnce,
        Fault::FirstVariableMarked,
        Fault::ValueMarked,
        Fault::MarksKept,
        Fault::SecondArrivalFree,
        Fault::SecondArrivalBounded,
    ];

    /// Other readings of Note 2 of document 02. Those of `STRIKING` strike out answers that should stay.
    pub const OF_REPEATS: [Fault; 12] = [
        Fault::RepeatsWritten,
        Fault::ComparedBeforeFull,
        Fault::ComparedInRound,
        Fault::ComparedWithLast,
        Fault::EarlierStruck,
        Fault::RepeatTakesStep,
        Fault::RepeatCounted,
        Fault::RepeatTakesRoom,
        Fault::ComparedByTerms,
        Fault::ComparedInAnyOrder,
        Fault::ComparedButLastWord,
        Fault::FinishedWithRepeats,
    ];

    pub const STRIKING: [Fault; 4] = [
        Fault::EarlierStruck,
        Fault::ComparedByTerms,
        Fault::ComparedInAnyOrder,
        Fault::ComparedButLastWord,
    ];
}

/// Those of a view: other readings of Note 1 of document 02.
#[derive(Clone, Copy, Debug, PartialEq, Eq)]
pub enum PageFault {
    /// Answers are numbered from 1; number 0 gives the first too.
    NumberedFromOne,
    /// The header word is not given.
    HeaderLeftOut,
    /// The payload counts the header word too, so that an answer is a word short. A header alone is still a word.
    HeaderCounted,
    /// A word of any kind is taken for a header.
    AnyKind,
    /// A word inside an answer that has a header's kind ends it and is the next header.
    InsideLookedAt,
    /// What stands behind the wanted answer has to be an answer too, unless it is the page's end.
    NextLookedAt,
    /// An answer that ends with the page overruns it.
    FullPageOverruns,
    /// An answer that overruns the page is taken to end with it.
    OverrunCut,
    /// The place of an overrun is the page's end, not the header word.
    OverrunAtEnd,
    /// The place of the page's end is the last word.
    EndAtLastWord,
    /// A word that is no header is gone past.
    NoHeaderSkipped,
    /// Zeros up to the page's end are its end, so that the place is the page's length.
    ZerosEndThePage,
    /// The place is the word behind the one where the walk stopped.
    PlaceTooFar,
}

impl PageFault {
    pub const ALL: [PageFault; 13] = [
        PageFault::NumberedFromOne,
        PageFault::HeaderLeftOut,
        PageFault::HeaderCounted,
        PageFault::AnyKind,
        PageFault::InsideLookedAt,
        PageFault::NextLookedAt,
        PageFault::FullPageOverruns,
        PageFault::OverrunCut,
        PageFault::OverrunAtEnd,
        PageFault::EndAtLastWord,
        PageFault::NoHeaderSkipped,
        PageFault::ZerosEndThePage,
        PageFault::PlaceTooFar,
    ];
}
