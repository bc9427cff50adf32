//! Stands in for the core crate's error type. Assumed from linepack.rs: `Error::invalid` takes
//! whatever becomes a string, and `Result` has that error.

#[derive(Debug)]
pub struct Error(pub String);

pub type Result<T> = std::result::Result<T, Error>;

impl Error {
    /// An error with its message.
    pub fn invalid(message: impl Into<String>) -> Self {
        Self(message.into())
    }
}
