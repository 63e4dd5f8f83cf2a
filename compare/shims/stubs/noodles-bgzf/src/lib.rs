//! Stands in for noodles-bgzf, which only the query by index names; no answer rests on it.

pub mod io {
    //! The reader's name.

    /// A reader of compressed blocks. It reads nothing.
    pub struct Reader<R>(pub R);
}
