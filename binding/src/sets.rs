//! The members of one set of a listing.

use crate::raw;

/// A part of the member list.
#[repr(C)]
#[derive(Clone, Copy, Debug)]
pub struct MembersOfAnswer {
    pub start: usize,
    pub count: usize,
}

/// The members of one set of a listing of `count`, as a part of `members`; none where there is no such
/// set.
pub fn members_of<'a>(members: &'a [u32], ends: &[u32], count: usize, set: usize) -> &'a [u32] {
    let part = raw::lanegravel_members_of(members, ends, count, set);
    &members[part.start..part.start + part.count]
}
