//! Stands in for the crate `flashraw_core`, of which the original takes `Error`, `Result` and
//! `par`. The error keeps its text; `par` runs everything in plain order on one thread.

/// An error of the original, known by its text.
#[derive(Debug, Clone, PartialEq, Eq)]
pub struct Error(pub String);

impl Error {
    pub fn corrupt(what: String) -> Self {
        Error(what)
    }
}

pub type Result<T> = std::result::Result<T, Error>;

/// The original's parallel helpers, in serial order whatever `parallel` says.
pub mod par {
    pub fn map<T, U>(items: Vec<T>, _parallel: bool, f: impl Fn(T) -> U) -> Vec<U> {
        items.into_iter().map(f).collect()
    }

    /// Calls `f` with the first row's number and the rows of each chunk of `rows` rows.
    pub fn for_each_row_chunk<T>(
        data: &mut [T],
        row: usize,
        rows: usize,
        _parallel: bool,
        f: impl Fn(usize, &mut [T]),
    ) {
        for (i, chunk) in data.chunks_mut(row * rows).enumerate() {
            f(i * rows, chunk);
        }
    }
}
