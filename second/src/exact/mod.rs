//! Which roundings favour the ship: criteria 5 and 8 with one value of
//! document 01 kept exact, or all of them, and a search for texts that pass
//! by a rounding.

mod big;
mod draw;
mod fraction;
mod hull;
mod levers;
mod roll;
mod rounding;
mod search;
mod show;
mod tally;
mod tune;
mod turns;
mod weather;
mod words;

#[cfg(test)]
mod tests;
#[cfg(test)]
mod tests_timber;
#[cfg(test)]
mod tests_units;

pub use search::Search;
pub use show::table;
