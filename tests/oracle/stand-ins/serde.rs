//! Stands in for the crate `serde`: the traits that the carried source names, with the methods it calls.

pub use de::{Deserialize, Deserializer};
pub use ser::{Serialize, Serializer};
pub use serde_derive::{Deserialize, Serialize};

pub mod ser {
    pub trait Serializer {
        type Ok;
        type Error;
        fn serialize_str(self, text: &str) -> Result<Self::Ok, Self::Error>;
        fn serialize_none(self) -> Result<Self::Ok, Self::Error>;
    }

    pub trait Serialize {
        fn serialize<S: Serializer>(&self, serializer: S) -> Result<S::Ok, S::Error>;
    }
}

pub mod de {
    pub trait Error {
        fn custom<T: std::fmt::Display>(message: T) -> Self;
    }

    pub trait Deserializer<'de> {
        type Error: Error;
    }

    pub trait Deserialize<'de>: Sized {
        fn deserialize<D: Deserializer<'de>>(deserializer: D) -> Result<Self, D::Error>;
    }

    impl<'de> Deserialize<'de> for Option<String> {
        fn deserialize<D: Deserializer<'de>>(_: D) -> Result<Self, D::Error> {
            Err(Error::custom("the stand-in reads nothing"))
        }
    }
}
