//! Finds a small part of a list that still shows what the whole list shows.

/// Drops items as long as the rest differs. `differs` says how many items were
/// run without a difference, where there is one: what follows the next one is not
/// needed.
pub fn minimise<T: Copy, E>(
    items: Vec<T>,
    mut differs: impl FnMut(&[T]) -> Result<Option<usize>, E>,
) -> Result<Vec<T>, E> {
    let Some(mut smallest) = shortened(&items, &mut differs)? else { return Ok(items) };
    let mut length = smallest.len().div_ceil(2);
    loop {
        let before = smallest.len();
        // From the end, so that what was tried already stays where it is.
        let mut end = smallest.len();
        while end > 0 {
            let start = end.saturating_sub(length);
            let rest = [&smallest[..start], &smallest[end..]].concat();
            if let Some(rest) = shortened(&rest, &mut differs)? {
                smallest = rest;
            }
            end = start.min(smallest.len());
        }
        if length > 1 {
            length = length.div_ceil(2);
        } else if smallest.len() == before {
            return Ok(smallest);
        }
    }
}

/// The list up to where it differs, if it does.
fn shortened<T: Copy, E>(
    items: &[T],
    differs: &mut impl FnMut(&[T]) -> Result<Option<usize>, E>,
) -> Result<Option<Vec<T>>, E> {
    let Some(equal) = differs(items)? else { return Ok(None) };
    let prefix = &items[..items.len().min(equal + 1)];
    // Programs that say something else only where the list ends need all of it.
    let needed = if differs(prefix)?.is_some() { prefix } else { items };
    Ok(Some(needed.to_vec()))
}
