//! Everything of a kind, for exhaustive comparisons.

/// Every list of `len` out of `items`.
pub fn list<T: Copy>(items: &[T], len: usize) -> impl Iterator<Item = Vec<T>> + '_ {
    let power = |exponent: usize| items.len().pow(exponent as u32);
    (0..power(len)).map(move |number| (0..len).map(|i| items[number / power(i) % items.len()]).collect())
}

/// Every pair of numbers up to `last`.
pub fn pair(last: usize) -> impl Iterator<Item = (usize, usize)> {
    (0..=last).flat_map(move |one| (0..=last).map(move |other| (one, other)))
}

/// Every string of up to so many characters out of three.
pub fn strings(most: usize) -> Vec<String> {
    (0..=most).flat_map(|len| list(&['a', 'b', 'é'], len)).map(|characters| characters.iter().collect()).collect()
}

/// Every text of up to so many of these bytes.
pub fn texts(bytes: &[u8], most: usize) -> Vec<Vec<u8>> {
    (0..=most).flat_map(|len| list(bytes, len)).collect()
}
