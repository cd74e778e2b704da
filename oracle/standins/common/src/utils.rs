//! How a limit above another one becomes one limit.

/// The skip and the fetch of an outer limit over an inner one: the skips add up; the fetch is the smaller of the outer one and
/// of what the inner one leaves behind the outer skip. A fetch that is absent drops out.
pub fn combine_limit(
    outer_skip: usize,
    outer_fetch: Option<usize>,
    inner_skip: usize,
    inner_fetch: Option<usize>,
) -> (usize, Option<usize>) {
    let left_by_inner = inner_fetch.map(|fetch| fetch.saturating_sub(outer_skip));
    let fetch = match (outer_fetch, left_by_inner) {
        (Some(outer), Some(inner)) => Some(outer.min(inner)),
        (outer, inner) => outer.or(inner),
    };
    (outer_skip + inner_skip, fetch)
}
