//! Decides for small programs which tuples the relations give, and holds an engine's answers to it (demand 3).
//!
//! Taken from document 01, as document 02 amends it: the table of words; the section "Logic without a search", entire; and
//! of "One answer" that no constraint mentions a variable absent from the query terms. The last needs a look at the words,
//! because a disequality about such a variable can always be met, and so changes no tuple.
//!
//! Shared with the engine, or with the separate implementation, is nothing else: there is no search and no path, no round or
//! order of goals, no binding, unification, occurs check, trial or review. Relations are multiplied out into clauses
//! (`clause`); whether a clause gives a tuple is decided by an equivalence of terms and one assignment (`model`); an
//! answer is read as a clause as well, so that both sides are the same question (`demand`).

pub mod clause;
pub mod demand;
pub mod model;
pub mod syntax;
