//! What each chart did in a step.

/// What a chart did in a step.
#[derive(Clone, Copy, PartialEq, Eq, Hash, Debug)]
pub enum Place {
    /// It took no transition: it was inactive, or there is no chart of this number.
    None,
    /// It took the transition at this place of its own list, from 0 on.
    Transition(u8),
    /// It was active and stayed: no transition from its state was triggered. Edition 2 only.
    Stayed,
}

/// The most charts of a file (RULES 2.8).
pub const CHARTS: usize = 16;

/// What each chart did, by its number; none for numbers that no chart has.
pub type Places = [Place; CHARTS];

impl Place {
    /// The byte for no transition (RULES 5.11).
    pub(crate) const NO_PLACE: u8 = 255;
    /// The byte for staying (RULES 5.11).
    const STAYED: u8 = 254;

    /// The place of a byte in the engine's answer.
    pub fn of(number: u8) -> Place {
        match number {
            Place::NO_PLACE => Place::None,
            Place::STAYED => Place::Stayed,
            place => Place::Transition(place),
        }
    }

    /// The places of so many charts, from the bytes in the engine's answer; none behind them.
    pub(crate) fn all(numbers: &[u8; CHARTS], charts: usize) -> Places {
        let mut places = [Place::None; CHARTS];
        for (place, &number) in places.iter_mut().zip(numbers).take(charts) {
            *place = Place::of(number);
        }
        places
    }

    /// Its byte in the engine's answer.
    pub fn number(self) -> u8 {
        match self {
            Place::None => Place::NO_PLACE,
            Place::Transition(place) => place,
            Place::Stayed => Place::STAYED,
        }
    }
}
