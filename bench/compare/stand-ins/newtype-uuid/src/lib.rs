//! Stand-in for newtype-uuid: what report.rs and deserialize.rs use.
use std::{fmt, marker::PhantomData};
use uuid::Uuid;

pub struct TypedUuidTag(#[allow(dead_code)] &'static str);

impl TypedUuidTag {
    pub const fn new(tag: &'static str) -> Self {
        TypedUuidTag(tag)
    }
}

pub trait TypedUuidKind {
    fn tag() -> TypedUuidTag;
}

pub trait GenericUuid {
    fn from_untyped_uuid(uuid: Uuid) -> Self;
    fn into_untyped_uuid(self) -> Uuid;
}

pub struct TypedUuid<T> {
    uuid: Uuid,
    kind: PhantomData<fn() -> T>,
}

impl<T: TypedUuidKind> GenericUuid for TypedUuid<T> {
    fn from_untyped_uuid(uuid: Uuid) -> Self {
        TypedUuid { uuid, kind: PhantomData }
    }
    fn into_untyped_uuid(self) -> Uuid {
        self.uuid
    }
}

impl<T> Clone for TypedUuid<T> {
    fn clone(&self) -> Self {
        *self
    }
}

impl<T> Copy for TypedUuid<T> {}

impl<T> PartialEq for TypedUuid<T> {
    fn eq(&self, other: &Self) -> bool {
        self.uuid == other.uuid
    }
}

impl<T> Eq for TypedUuid<T> {}

impl<T> fmt::Debug for TypedUuid<T> {
    fn fmt(&self, f: &mut fmt::Formatter<'_>) -> fmt::Result {
        fmt::Debug::fmt(&self.uuid, f)
    }
}

impl<T> fmt::Display for TypedUuid<T> {
    fn fmt(&self, f: &mut fmt::Formatter<'_>) -> fmt::Result {
        fmt::Display::fmt(&self.uuid, f)
    }
}
