//! The calls on an alphabet and a length, and what the words of their list say.
use crate::numbers;
use crate::refusal::Refusal;
use crate::vocabulary::{Alphabet, Length, FIRST_LETTER, LARGEST_ALPHABET, LONGEST_SQUARE_FREE};
use crate::words::{counted, written};
use core::fmt;
use core::ops::Deref;

/// Writes every word of this length over the first letters, as many as the alphabet says, that has no Abelian square: no two stretches side
/// by side in it have the same letters, each as often. They are in alphabetical order, each once. Returns how many: refusals 11, 12, 3, in
/// this order. Of length 0 there is one, the empty word. [`square_free_words`] gives their letters, and a slice of
/// [`MOST_SQUARE_FREE`](crate::MOST_SQUARE_FREE) places is never too short.
///
/// The words are counted before they are written, whatever the places, so that a list takes about as long as two counts.
///
/// ```
/// use luffbutton::{list_square_free, square_free_words, Alphabet, Length};
///
/// let (alphabet, length) = (Alphabet(2), Length(3));
/// let mut out = [0; 4];
/// let written = list_square_free(alphabet, length, &mut out).unwrap();
/// let mut words = square_free_words(&out[..written], alphabet, length);
/// assert_eq!(words.next().as_deref(), Some(&b"aba"[..]));
/// assert_eq!(words.next().as_deref(), Some(&b"bab"[..]));
/// assert_eq!(words.next(), None);
/// ```
pub fn list_square_free(
    alphabet: Alphabet,
    length: Length,
    out: &mut [u32],
) -> Result<usize, Refusal> {
    written(numbers::list_square_free(alphabet, length, out))
}

/// How many words [`list_square_free`] writes of this alphabet and this length, and so how many places it needs: refusals 11, 12.
///
/// ```
/// use luffbutton::{count_square_free, Alphabet, Length};
///
/// assert_eq!(count_square_free(Alphabet(2), Length(3)), Ok(2));
/// ```
pub fn count_square_free(alphabet: Alphabet, length: Length) -> Result<usize, Refusal> {
    counted(numbers::count_square_free(alphabet, length))
}

/// A word of a list of square-free words, as its letters: it is read as a slice of these.
#[derive(Clone, Copy, PartialEq, Eq)]
pub struct SquareFreeWord {
    /// The letters, and 0 beyond the length.
    letters: [u8; LONGEST_SQUARE_FREE],
    length: usize,
}

impl SquareFreeWord {
    /// The letters that an output word of kind 9 stands for in the list of this alphabet and this length. None where the list has no such
    /// word: where its kind is another, where a list of this alphabet or this length is refused, where so many letters over this alphabet
    /// have no such number, and where the letters have an Abelian square.
    pub fn of(word: u32, alphabet: Alphabet, length: Length) -> Option<SquareFreeWord> {
        let (Alphabet(k), Length(n)) = (alphabet, length);
        if word >> 28 != 9 || !(1..=LARGEST_ALPHABET).contains(&k) {
            return None;
        }
        let mut letters = [0; LONGEST_SQUARE_FREE];
        let mut number = (word - (9 << 28)) as usize;
        for letter in letters.get_mut(..n)?.iter_mut().rev() {
            *letter = FIRST_LETTER + (number % k) as u8;
            number /= k;
        }
        let read = SquareFreeWord { letters, length: n };
        (number == 0 && !has_square(&read)).then_some(read)
    }
}

/// Whether two stretches side by side in these letters, among the first [`LARGEST_ALPHABET`], have the same letters, each as often.
fn has_square(letters: &[u8]) -> bool {
    let counts = |stretch: &[u8]| {
        let mut counts = [0; LARGEST_ALPHABET];
        for letter in stretch {
            counts[usize::from(letter - FIRST_LETTER)] += 1;
        }
        counts
    };
    (1..=letters.len() / 2).any(|half| {
        let mut pairs = letters.windows(2 * half).map(|both| both.split_at(half));
        pairs.any(|(one, next)| counts(one) == counts(next))
    })
}

impl Deref for SquareFreeWord {
    type Target = [u8];

    fn deref(&self) -> &[u8] {
        &self.letters[..self.length]
    }
}

/// Its letters.
impl fmt::Debug for SquareFreeWord {
    fn fmt(&self, f: &mut fmt::Formatter<'_>) -> fmt::Result {
        write!(f, "SquareFreeWord(\"{}\")", self.escape_ascii())
    }
}

/// The letters of the words of a list, in their order. The words are those that [`list_square_free`] has written, `&out[..written]`; what
/// is no word of a list of this alphabet and this length ([`SquareFreeWord::of`]) is passed over. The alphabet and the length have to be
/// those that the list was made with: with others the letters are others, or none.
pub fn square_free_words(
    words: &[u32],
    alphabet: Alphabet,
    length: Length,
) -> impl DoubleEndedIterator<Item = SquareFreeWord> + Clone + '_ {
    let letters = move |&word: &u32| SquareFreeWord::of(word, alphabet, length);
    words.iter().filter_map(letters)
}
