/// How many of each kind a linker ever gives numbers to, those of what is retired among them.
///
/// ```
/// let few = linkd::Limits { loaders: 10, ..linkd::Limits::of_sites(1_000) };
/// assert_eq!((few.sites, few.loaders, few.classes), (1_000, 10, linkd::Limits::MOST));
/// ```
#[derive(Clone, Copy, Debug, PartialEq, Eq, Hash)]
pub struct Limits {
    /// Requested sites: 1 to [`MOST`](Limits::MOST).
    pub sites: u32,
    /// Loaders, the first one among them: 1 to [`MOST`](Limits::MOST), or 0, which stands for that.
    pub loaders: u32,
    /// Classes: 1 to [`MOST`](Limits::MOST), or 0, which stands for that.
    pub classes: u32,
    /// Call sites: 1 to [`MOST`](Limits::MOST), or 0, which stands for that.
    pub call_sites: u32,
    /// Switch points: 1 to [`MOST`](Limits::MOST), or 0, which stands for that.
    pub switches: u32,
}

impl Limits {
    /// The most of a kind that a linker may have.
    pub const MOST: u32 = 1_048_576;

    /// So many sites, and the most of each other kind.
    pub const fn of_sites(sites: u32) -> Limits {
        Limits { sites, loaders: Limits::MOST, classes: Limits::MOST, call_sites: Limits::MOST, switches: Limits::MOST }
    }
}
