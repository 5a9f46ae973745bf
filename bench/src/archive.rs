//! The C entries of libperlenhuf.a and libprobe.a. On the side of C a slice is a pointer and a count of elements.

/// The regrouping call's signature.
pub type Regroup =
    unsafe extern "C" fn(*const u8, usize, *const u8, usize, *const u8, usize, *const u8, usize, *mut u8, usize) -> u64;

/// The listing's signature.
pub type Listing =
    unsafe extern "C" fn(*const u8, usize, *const u8, usize, *const u8, usize, *mut u8, usize, *mut u32, usize) -> u64;

/// The signature of the listing that also tells how many lengths were longer than needed.
pub type ListingLonger = unsafe extern "C" fn(
    *const u8,
    usize,
    *const u8,
    usize,
    *const u8,
    usize,
    *mut u8,
    usize,
    *mut u32,
    usize,
    *mut u64,
) -> u64;

/// The deep write's signature.
pub type DeepWrite = unsafe extern "C" fn(*const u8, usize, *const u8, usize, *mut u8, usize) -> u64;

/// The deep listing's signature.
pub type DeepListing = unsafe extern "C" fn(*const u8, usize, *const u8, usize, *mut u8, usize, *mut u32, usize) -> u64;

/// The same of the deep listing.
pub type DeepListingLonger =
    unsafe extern "C" fn(*const u8, usize, *const u8, usize, *mut u8, usize, *mut u32, usize, *mut u64) -> u64;

/// The feed's signature.
pub type Feed = unsafe extern "C" fn(
    *const u8,
    usize,
    *const u8,
    usize,
    *const u8,
    usize,
    *const u8,
    usize,
    *const u8,
    usize,
    *mut u8,
    usize,
    *mut u64,
);

#[rustfmt::skip]
extern "C" {
    pub fn perlenhuf_regroup(
        tags: *const u8, tags_len: usize, packs: *const u8, packs_len: usize, target: *const u8, target_len: usize,
        group: *const u8, group_len: usize, output: *mut u8, output_len: usize,
    ) -> u64;
    pub fn perlenhuf_listing(
        tags: *const u8, tags_len: usize, packs: *const u8, packs_len: usize, group: *const u8, group_len: usize,
        keys: *mut u8, keys_len: usize, numbers: *mut u32, numbers_len: usize,
    ) -> u64;
    pub fn perlenhuf_feed(
        tags: *const u8, tags_len: usize, packs: *const u8, packs_len: usize, source: *const u8, source_len: usize,
        target: *const u8, target_len: usize, feed: *const u8, feed_len: usize, output: *mut u8, output_len: usize,
        numbers: *mut u64,
    );
    pub fn probe_deep(
        tags: *const u8, tags_len: usize, group: *const u8, group_len: usize, output: *mut u8, output_len: usize,
    ) -> u64;
    pub fn probe_deep_listing(
        tags: *const u8, tags_len: usize, group: *const u8, group_len: usize,
        keys: *mut u8, keys_len: usize, numbers: *mut u32, numbers_len: usize,
    ) -> u64;
    pub fn probe_listing_longer(
        tags: *const u8, tags_len: usize, packs: *const u8, packs_len: usize, group: *const u8, group_len: usize,
        keys: *mut u8, keys_len: usize, numbers: *mut u32, numbers_len: usize, longer: *mut u64,
    ) -> u64;
    pub fn probe_deep_listing_longer(
        tags: *const u8, tags_len: usize, group: *const u8, group_len: usize,
        keys: *mut u8, keys_len: usize, numbers: *mut u32, numbers_len: usize, longer: *mut u64,
    ) -> u64;
}

/// The regrouping call of the archive.
#[rustfmt::skip]
pub fn regroup(tags: &[u8], packs: &[u8], target: &[u8], group: &[u8], output: &mut [u8]) -> u64 {
    // SAFETY: the pointers and the counts are those of slices, and the output overlaps no other.
    unsafe {
        perlenhuf_regroup(
            tags.as_ptr(), tags.len(), packs.as_ptr(), packs.len(), target.as_ptr(), target.len(),
            group.as_ptr(), group.len(), output.as_mut_ptr(), output.len(),
        )
    }
}

/// The listing of the archive.
#[rustfmt::skip]
pub fn listing(tags: &[u8], packs: &[u8], group: &[u8], keys: &mut [u8], numbers: &mut [u32]) -> u64 {
    // SAFETY: the pointers and the counts are those of slices, and the outputs overlap no other.
    unsafe {
        perlenhuf_listing(
            tags.as_ptr(), tags.len(), packs.as_ptr(), packs.len(), group.as_ptr(), group.len(),
            keys.as_mut_ptr(), keys.len(), numbers.as_mut_ptr(), numbers.len(),
        )
    }
}

/// The feed of the archive.
#[rustfmt::skip]
pub fn feed(
    tags: &[u8], packs: &[u8], source: &[u8], target: &[u8], feed: &[u8], output: &mut [u8], numbers: &mut [u64; 6],
) {
    // SAFETY: the pointers and the counts are those of slices, the numbers are six, and what is written overlaps no
    // other.
    unsafe {
        perlenhuf_feed(
            tags.as_ptr(), tags.len(), packs.as_ptr(), packs.len(), source.as_ptr(), source.len(),
            target.as_ptr(), target.len(), feed.as_ptr(), feed.len(), output.as_mut_ptr(), output.len(),
            numbers.as_mut_ptr(),
        )
    }
}

/// The deep write of the archive.
#[rustfmt::skip]
pub fn deep_write(tags: &[u8], group: &[u8], output: &mut [u8]) -> u64 {
    // SAFETY: the pointers and the counts are those of slices, and the output overlaps no other.
    unsafe {
        probe_deep(tags.as_ptr(), tags.len(), group.as_ptr(), group.len(), output.as_mut_ptr(), output.len())
    }
}

/// The deep listing of the archive.
#[rustfmt::skip]
pub fn deep_listing(tags: &[u8], group: &[u8], keys: &mut [u8], numbers: &mut [u32]) -> u64 {
    // SAFETY: the pointers and the counts are those of slices, and the outputs overlap no other.
    unsafe {
        probe_deep_listing(
            tags.as_ptr(), tags.len(), group.as_ptr(), group.len(),
            keys.as_mut_ptr(), keys.len(), numbers.as_mut_ptr(), numbers.len(),
        )
    }
}

/// The listing of the archive, and how many lengths were longer than needed.
#[rustfmt::skip]
pub fn listing_longer(
    tags: &[u8], packs: &[u8], group: &[u8], keys: &mut [u8], numbers: &mut [u32], longer: &mut u64,
) -> u64 {
    // SAFETY: the pointers and the counts are those of slices, and the outputs overlap no other.
    unsafe {
        probe_listing_longer(
            tags.as_ptr(), tags.len(), packs.as_ptr(), packs.len(), group.as_ptr(), group.len(),
            keys.as_mut_ptr(), keys.len(), numbers.as_mut_ptr(), numbers.len(), longer,
        )
    }
}

/// The same of the deep listing.
#[rustfmt::skip]
pub fn deep_listing_longer(tags: &[u8], group: &[u8], keys: &mut [u8], numbers: &mut [u32], longer: &mut u64) -> u64 {
    // SAFETY: the pointers and the counts are those of slices, and the outputs overlap no other.
    unsafe {
        probe_deep_listing_longer(
            tags.as_ptr(), tags.len(), group.as_ptr(), group.len(),
            keys.as_mut_ptr(), keys.len(), numbers.as_mut_ptr(), numbers.len(), longer,
        )
    }
}
