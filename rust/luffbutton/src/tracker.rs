//! The tracker.
use crate::numbers;
use crate::refusal::Refusal;
use crate::vocabulary::Fields;
use crate::words::{counted, written};
use core::fmt;

/// A word that grows and shrinks by letters, with its Abelian periods known after every call. It takes 14,784 bytes:
/// [`Tracker::fresh`] and [`Tracker::replay`] return it by value; the other calls work on it in place.
#[derive(Clone, PartialEq, Eq)]
pub struct Tracker {
    fields: Fields,
}

impl Default for Tracker {
    fn default() -> Tracker {
        Tracker::fresh()
    }
}

/// The letters held; the board and the totals follow from them.
impl fmt::Debug for Tracker {
    fn fmt(&self, f: &mut fmt::Formatter<'_>) -> fmt::Result {
        write!(f, "Tracker(\"{}\")", self.letters().escape_ascii())
    }
}

impl Tracker {
    /// A tracker that holds the empty word, all zero. A `static` can hold it.
    pub const fn fresh() -> Tracker {
        Tracker {
            fields: Fields::zero(),
        }
    }

    /// A fresh tracker after a list of calls, one byte each: [`TAKE_BACK`](crate::TAKE_BACK) takes back, [`CLEAR`](crate::CLEAR)
    /// clears, any other byte is added. Then one list to `out`. Returns the tracker, the number of calls refused, and what the list
    /// answered; where the list is refused with 3, the tracker and the number are those of the calls all the same. Its time grows
    /// with the number of calls.
    pub fn replay(calls: &[u8], out: &mut [u32]) -> (Tracker, usize, Result<usize, Refusal>) {
        let mut fields = Fields::zero();
        let answer = numbers::replay(&mut fields, calls, out);
        let listed = Refusal::check(answer.refusal, answer.value).map(|()| answer.written);
        (Tracker { fields }, answer.refused, listed)
    }

    /// The letter joins the end: refusals 2, 4.
    pub fn add(&mut self, letter: u8) -> Result<(), Refusal> {
        let answer = numbers::add(&mut self.fields, letter);
        Refusal::check(answer.refusal, answer.value)
    }

    /// The last letter goes, and every pair that had ended with it is open again: refusal 5.
    pub fn take_back(&mut self) -> Result<(), Refusal> {
        let answer = numbers::take_back(&mut self.fields);
        Refusal::check(answer.refusal, answer.value)
    }

    /// Back to the empty word.
    pub fn clear(&mut self) {
        numbers::clear(&mut self.fields);
    }

    /// Writes the Abelian periods of the letters held, by p and then h, and returns how many: refusal 3.
    pub fn list(&self, out: &mut [u32]) -> Result<usize, Refusal> {
        written(numbers::list(&self.fields, out))
    }

    /// How many words [`list`](Tracker::list) writes, and so how many places it needs: the number of the Abelian periods of the letters
    /// held. It is never refused: the one reason would be 6, a damaged tracker, and none made by its calls is.
    pub fn count(&self) -> Result<usize, Refusal> {
        counted(numbers::count(&self.fields))
    }

    /// How many pairs in range for the letters held are live: they are the Abelian periods, as many as [`count`](Tracker::count) says. It
    /// is kept by every call that changes the letters, so that it is there at once.
    pub fn live(&self) -> usize {
        self.fields.live
    }

    /// How many pairs in range for the letters held have ended. With the live ones they are all pairs in range.
    pub fn ended(&self) -> usize {
        self.fields.ended
    }

    /// The letters held.
    pub fn letters(&self) -> &[u8] {
        &self.fields.bytes[..self.fields.length]
    }

    /// The fields.
    pub fn fields(&self) -> &Fields {
        &self.fields
    }
}
