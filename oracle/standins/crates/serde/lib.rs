//! Names of serde that util.rs uses for ReadableSize. No call of the index
//! comes here.

pub trait Serialize {
    fn serialize<S: Serializer>(&self, serializer: S) -> Result<S::Ok, S::Error>;
}

pub trait Serializer: Sized {
    type Ok;
    type Error;

    fn serialize_str(self, v: &str) -> Result<Self::Ok, Self::Error>;
}

pub trait Deserialize<'de>: Sized {
    fn deserialize<D: Deserializer<'de>>(deserializer: D) -> Result<Self, D::Error>;
}

pub trait Deserializer<'de>: Sized {
    type Error: de::Error;

    fn deserialize_any<V: de::Visitor<'de>>(self, visitor: V) -> Result<V::Value, Self::Error>;
}

pub mod de {
    use std::fmt::{Display, Formatter, Result as FmtResult};

    pub enum Unexpected {
        Signed(i64),
    }

    pub trait Error: Sized {
        fn custom<T: Display>(msg: T) -> Self;
        fn invalid_value<T>(unexpected: Unexpected, expected: &T) -> Self;
    }

    pub trait Visitor<'de>: Sized {
        type Value;

        fn expecting(&self, formatter: &mut Formatter<'_>) -> FmtResult;
        fn visit_i64<E: Error>(self, v: i64) -> Result<Self::Value, E>;
        fn visit_u64<E: Error>(self, v: u64) -> Result<Self::Value, E>;
        fn visit_str<E: Error>(self, v: &str) -> Result<Self::Value, E>;
    }
}
