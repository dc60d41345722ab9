//! How many of something there were, in all and of each sort.

use std::fmt;
use std::marker::PhantomData;

/// What one of them may have, with its name.
pub type Sort<T> = (&'static str, fn(&T) -> bool);

/// What is counted by sorts.
pub trait Sorted: Sized + 'static {
    /// What is said of all of them.
    const NAME: &'static str;
    const SORTS: &'static [Sort<Self>];
}

#[derive(Clone, Debug)]
pub struct Tally<T: Sorted> {
    pub all: usize,
    of_sort: Vec<usize>,
    of: PhantomData<T>,
}

impl<T: Sorted> Default for Tally<T> {
    fn default() -> Tally<T> {
        Tally {
            all: 0,
            of_sort: vec![0; T::SORTS.len()],
            of: PhantomData,
        }
    }
}

impl<T: Sorted> Tally<T> {
    pub fn count(&mut self, one: &T) {
        self.all += 1;
        for (count, (_, is_of)) in self.of_sort.iter_mut().zip(T::SORTS) {
            *count += usize::from(is_of(one));
        }
    }

    /// How many there were of the sort of which there were fewest.
    pub fn fewest(&self) -> usize {
        self.of_sort.iter().copied().min().unwrap_or(0)
    }
}

impl<T: Sorted> fmt::Display for Tally<T> {
    fn fmt(&self, f: &mut fmt::Formatter<'_>) -> fmt::Result {
        write!(f, "{} {}", self.all, T::NAME)?;
        let mut each = self.of_sort.iter().zip(T::SORTS);
        each.try_for_each(|(count, (name, _))| write!(f, ", {count} {name}"))
    }
}
