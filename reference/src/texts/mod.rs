//! Random typed texts, the same for the same seed: files typed in one of the many ways there are
//! ([`typed`]), right and damaged, cut, too deep, with names at their limits ([`draw`]).

pub mod draw;
pub mod typed;
