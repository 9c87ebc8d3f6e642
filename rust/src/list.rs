//! Lists whose length is not known beforehand, grown by what the library says it needs.
use crate::Refusal;

/// How many items a listing call has: asked with no room, it says so as a refusal 11.
pub(crate) fn needed(asked: Result<usize, Refusal>) -> Result<usize, Refusal> {
    match asked {
        Err(Refusal::NoRoom { needed, .. }) => Ok(needed),
        other => other,
    }
}

/// Room for so many items; refused as 11 where the machine has no such memory.
pub(crate) fn room<T: Clone + Default>(needed: usize) -> Result<Vec<T>, Refusal> {
    let mut list = Vec::new();
    list.try_reserve_exact(needed).map_err(|_| Refusal::NoRoom { needed, lent: 0 })?;
    list.resize(needed, T::default());
    Ok(list)
}

/// The items of a listing call, as a `Vec`: one call for their number, one that fills it.
pub(crate) fn listed<T: Clone + Default>(ask: impl Fn(&mut [T]) -> Result<usize, Refusal>) -> Result<Vec<T>, Refusal> {
    let mut list = room(needed(ask(&mut []))?)?;
    ask(&mut list)?;
    Ok(list)
}
