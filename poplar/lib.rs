//! poplar: packs of the IBM 2311 through the proved stand-in for the 2841. `poplar --help` says what it does.
//!
//! Asked of the library: where markers are, where areas lie, which of them are readable, and all that a command word does. Done here, and
//! only to show it: a cell is taken for a byte or not, the bytes of a readable home address or count are cut into the fields that
//! document 01 gives, what no marker and no area covers is called gap, and of areas that go over one another one is drawn.
mod args;
mod belongs;
mod chain;
mod changes;
mod check;
pub mod cli;
mod demo;
mod files;
mod pack;
mod place;
mod refusal;
mod run;
mod save;
mod survey;
mod svg;
mod text;
mod track;
mod words;
