//! The calls of the static library `testing` (crates/testing), over slices and lists: what the runs and
//! the bench need, and the product does not have. Every call is safe to make with any values, for the
//! reasons that `binding` gives.

unsafe extern "C" {
    fn testing_gap_sets(
        values: *const u32,
        count: usize,
        gap: u32,
        parents: *mut u32,
        parents_count: usize,
        members: *mut u32,
        members_count: usize,
        ends: *mut u32,
        ends_count: usize,
        work: *mut u32,
        work_count: usize,
    ) -> SetsAnswer;
    fn testing_pair_sets(
        n: usize,
        pairs: *const u32,
        count: usize,
        parents: *mut u32,
        parents_count: usize,
        members: *mut u32,
        members_count: usize,
        ends: *mut u32,
        ends_count: usize,
        work: *mut u32,
        work_count: usize,
    ) -> SetsAnswer;
    fn testing_sort_indexes(
        keys: *const u64,
        count: usize,
        out: *mut u32,
        out_count: usize,
        work: *mut u32,
        work_count: usize,
    ) -> bool;
}

/// 0 where the call is accepted, else 1, and how many sets there are. A refused call writes nothing.
#[repr(C)]
#[derive(Clone, Copy, Debug, PartialEq)]
pub struct SetsAnswer {
    pub number: u32,
    pub count: usize,
}

/// The lists that a call which lists sets is lent: `members` and `ends` are answered in, the others
/// are work lists.
#[derive(Clone, Debug, PartialEq)]
pub struct SetLists {
    pub parents: Vec<u32>,
    pub members: Vec<u32>,
    pub ends: Vec<u32>,
    pub work: Vec<u32>,
}

/// The closed sets of the places of `values`, two of which touch when their numbers differ by at most
/// `gap`. Refused where a list has fewer entries than there are values, or there are 2^32 of them.
pub fn gap_sets(values: &[u32], gap: u32, lists: &mut SetLists) -> SetsAnswer {
    // SAFETY: as the top of this file says.
    unsafe {
        testing_gap_sets(
            values.as_ptr(),
            values.len(),
            gap,
            lists.parents.as_mut_ptr(),
            lists.parents.len(),
            lists.members.as_mut_ptr(),
            lists.members.len(),
            lists.ends.as_mut_ptr(),
            lists.ends.len(),
            lists.work.as_mut_ptr(),
            lists.work.len(),
        )
    }
}

/// The same for the indexes below n, two of which touch when they are one of the pairs (two numbers
/// each; a number without its partner makes no pair). Refused also where a number is not below n.
pub fn pair_sets(n: usize, pairs: &[u32], lists: &mut SetLists) -> SetsAnswer {
    // SAFETY: as the top of this file says.
    unsafe {
        testing_pair_sets(
            n,
            pairs.as_ptr(),
            pairs.len(),
            lists.parents.as_mut_ptr(),
            lists.parents.len(),
            lists.members.as_mut_ptr(),
            lists.members.len(),
            lists.ends.as_mut_ptr(),
            lists.ends.len(),
            lists.work.as_mut_ptr(),
            lists.work.len(),
        )
    }
}

/// The indexes of the keys by ascending key, equal keys by index, from the front of `out`. False, and
/// nothing written, where `out` or `work` has fewer entries than there are keys, or there are 2^32.
pub fn sort_indexes(keys: &[u64], out: &mut [u32], work: &mut [u32]) -> bool {
    // SAFETY: as the top of this file says.
    unsafe {
        testing_sort_indexes(
            keys.as_ptr(),
            keys.len(),
            out.as_mut_ptr(),
            out.len(),
            work.as_mut_ptr(),
            work.len(),
        )
    }
}
