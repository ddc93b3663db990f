//! Stands in for the crate `serde_json`: `to_string` is there to be named and always fails.

pub struct Error;

pub fn to_string<T: ?Sized>(_: &T) -> Result<String, Error> {
    Err(Error)
}
