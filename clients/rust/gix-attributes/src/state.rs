//! States of attributes, and their values.

use bstr::{BStr, BString};

/// The state of an attribute.
#[derive(Clone, Debug, PartialEq, Eq, PartialOrd, Ord, Hash)]
#[cfg_attr(feature = "serde", derive(serde::Serialize, serde::Deserialize))]
pub enum State {
    /// `text`
    Set,
    /// `-text`
    Unset,
    /// `text=auto`, with the value, which may be empty.
    Value(Value),
    /// `!text`, or no line names the attribute.
    Unspecified,
}

/// The state of an attribute, whose value is borrowed.
#[derive(Clone, Copy, Debug, PartialEq, Eq, PartialOrd, Ord, Hash)]
#[cfg_attr(feature = "serde", derive(serde::Serialize, serde::Deserialize))]
pub enum StateRef<'a> {
    /// `text`
    Set,
    /// `-text`
    Unset,
    /// `text=auto`, with the value, which may be empty.
    #[cfg_attr(feature = "serde", serde(borrow))]
    Value(ValueRef<'a>),
    /// `!text`, or no line names the attribute.
    Unspecified,
}

/// The value of an attribute: any bytes.
#[derive(Clone, Debug, PartialEq, Eq, PartialOrd, Ord, Hash)]
#[cfg_attr(feature = "serde", derive(serde::Serialize, serde::Deserialize))]
pub struct Value(BString);

/// The value of an attribute, borrowed.
#[derive(Clone, Copy, Debug, PartialEq, Eq, PartialOrd, Ord, Hash)]
#[cfg_attr(feature = "serde", derive(serde::Serialize, serde::Deserialize))]
pub struct ValueRef<'a>(#[cfg_attr(feature = "serde", serde(borrow))] &'a [u8]);

impl<'a> State {
    /// Borrows the value.
    pub fn as_ref(&'a self) -> StateRef<'a> {
        match self {
            State::Set => StateRef::Set,
            State::Unset => StateRef::Unset,
            State::Value(value) => StateRef::Value(value.as_ref()),
            State::Unspecified => StateRef::Unspecified,
        }
    }
}

impl<'a> StateRef<'a> {
    /// The state with a value.
    pub fn from_bytes(value: &'a [u8]) -> StateRef<'a> {
        StateRef::Value(ValueRef(value))
    }
}

impl StateRef<'_> {
    /// Whether it is neither set nor unset nor has a value.
    pub fn is_unspecified(&self) -> bool {
        *self == StateRef::Unspecified
    }

    /// Whether it is set, or has a value.
    pub fn is_set(&self) -> bool {
        matches!(self, StateRef::Set | StateRef::Value(_))
    }

    /// Whether it is unset.
    pub fn is_unset(&self) -> bool {
        *self == StateRef::Unset
    }

    /// The value, if it has one.
    pub fn as_bstr(&self) -> Option<&BStr> {
        match self {
            StateRef::Value(value) => Some(value.as_bstr()),
            _ => None,
        }
    }

    /// Copies the value.
    pub fn to_owned(self) -> State {
        match self {
            StateRef::Set => State::Set,
            StateRef::Unset => State::Unset,
            StateRef::Value(value) => State::Value(value.to_owned()),
            StateRef::Unspecified => State::Unspecified,
        }
    }
}

impl<'a> From<StateRef<'a>> for State {
    fn from(state: StateRef<'a>) -> State {
        state.to_owned()
    }
}

impl Value {
    /// Borrows the bytes.
    pub fn as_ref(&self) -> ValueRef<'_> {
        ValueRef(&self.0)
    }
}

impl<'a> ValueRef<'a> {
    /// The value with these bytes.
    pub fn from_bytes(bytes: &'a [u8]) -> ValueRef<'a> {
        ValueRef(bytes)
    }

    /// The bytes.
    pub fn as_bstr(&self) -> &'a BStr {
        BStr::new(self.0)
    }

    /// Copies the bytes.
    pub fn to_owned(self) -> Value {
        Value(self.0.into())
    }
}

impl<'a> From<&'a str> for ValueRef<'a> {
    fn from(text: &'a str) -> ValueRef<'a> {
        ValueRef(text.as_bytes())
    }
}

impl From<&str> for Value {
    fn from(text: &str) -> Value {
        Value(text.into())
    }
}

impl<'a> From<ValueRef<'a>> for Value {
    fn from(value: ValueRef<'a>) -> Value {
        value.to_owned()
    }
}
