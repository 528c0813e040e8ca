//! Document 01 worked out a second time, by other means than the product.
//!
//! * `reader` takes a text apart by splitting it at its signs (refusals 3 to 7).
//! * `pieces` says which plans a book allows by trying every cut of a plan.
//! * `derivative` says the same for plans of every length, by derivatives.
//! * `stages` makes the stages' sets literally, as sets of states.
//! * `minimise` finds the smallest machine by table filling.
//! * `compile` puts them in document 01's order and counts.
//! * `card` writes the bytes, `board` tests, steps and judges them, `mounted`
//!   has the boards mounted before W2 and before W3.
//! * `distance` finds how much is still owed, from the end of a plan backwards.
//! * `factor` finds the shortest stretch to blame by trying every one.
//! * `census` counts the plans of a length, from their ends backwards.
//!
//! Nothing here is made to be fast; everything is made to be compared with
//! the sentence that it follows.

pub mod board;
pub mod card;
pub mod census;
pub mod compile;
pub mod derivative;
pub mod distance;
pub mod factor;
pub mod machine;
pub mod minimise;
pub mod mounted;
pub mod pieces;
pub mod reader;
pub mod refusal;
pub mod stages;
pub mod syntax;
