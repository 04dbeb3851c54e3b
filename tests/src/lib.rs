//! The engine under test against the second program.
//!
//! Made-up files ([`made_up`], [`kinds`]) and journals ([`journals`]) become cases
//! ([`cases`]); each is given to both engines on equal copies, and everything
//! they return or leave behind is compared ([`compare`]); [`chains`] does the same
//! for calls for a chain, and [`desk`] spells the cases of 01. Which engine is under
//! test is decided in [`engine`] alone, and where the compiled programs stand
//! in [`workspace`]. [`night`] makes calls of the night program on real files, and
//! [`crates`] draws the picture of the proved crates. [`machine`] says what is done
//! otherwise where an emulator runs it all.

pub mod cases;
pub mod chains;
pub mod compare;
pub mod crates;
pub mod desk;
pub mod engine;
pub mod journals;
pub mod kinds;
pub mod machine;
pub mod made_up;
pub mod night;
pub mod rng;
pub mod workspace;
