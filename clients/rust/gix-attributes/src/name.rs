//! Names of attributes and macros.

use bstr::BStr;
use gix_error::{Error, Result, validation};
use gix_parallel::OwnShared;
use std::borrow::Borrow;

/// A valid name. Copies share its text, between threads too if the feature `parallel` of `gix-parallel` is on.
#[derive(Clone, Debug, PartialEq, Eq, PartialOrd, Ord, Hash)]
pub struct Name(OwnShared<str>);

/// A valid name that is borrowed.
#[derive(Clone, Copy, Debug, PartialEq, Eq, PartialOrd, Ord, Hash)]
pub struct NameRef<'a>(&'a str);

impl<'a> NameRef<'a> {
    /// The text as a name, if it is valid.
    pub(crate) fn of(text: &'a [u8]) -> Option<NameRef<'a>> {
        let is_valid = |byte: &u8| byte.is_ascii_alphanumeric() || matches!(byte, b'-' | b'.' | b'_');
        let is_name = !text.is_empty() && text[0] != b'-' && text.iter().all(is_valid);
        if is_name { std::str::from_utf8(text).ok().map(NameRef) } else { None }
    }

    /// What stands for a selected text that is no valid name.
    pub(crate) fn invalid() -> NameRef<'static> {
        NameRef("invalid")
    }

    /// The text.
    pub fn as_str(&self) -> &str {
        self.0
    }

    /// Copies the text.
    pub fn to_owned(self) -> Name {
        Name(self.0.into())
    }
}

impl<'a> Name {
    /// The text.
    pub fn as_str(&self) -> &str {
        &self.0
    }

    /// Borrows the text.
    pub fn as_ref(&'a self) -> NameRef<'a> {
        NameRef(&self.0)
    }
}

impl AsRef<str> for NameRef<'_> {
    fn as_ref(&self) -> &str {
        self.0
    }
}

impl AsRef<str> for Name {
    fn as_ref(&self) -> &str {
        &self.0
    }
}

/// A name is looked up by its text.
impl Borrow<str> for Name {
    fn borrow(&self) -> &str {
        &self.0
    }
}

/// A name has ASCII letters, digits, `-`, `.` and `_`, at least one, and doesn't begin with `-`.
impl<'a> TryFrom<&'a BStr> for NameRef<'a> {
    type Error = Error;

    /// The error is one of validation, with the text as its `input`.
    fn try_from(text: &'a BStr) -> Result<NameRef<'a>> {
        NameRef::of(text).ok_or_else(|| {
            let rule = "no name of an attribute: it takes ASCII letters, digits, `-`, `.` and `_`, and no `-` in front";
            validation(rule).with_input(text).into()
        })
    }
}

#[cfg(feature = "serde")]
impl serde::Serialize for Name {
    fn serialize<S: serde::Serializer>(&self, to: S) -> std::result::Result<S::Ok, S::Error> {
        to.serialize_newtype_struct("Name", self.as_str())
    }
}

#[cfg(feature = "serde")]
impl<'de> serde::Deserialize<'de> for Name {
    fn deserialize<D: serde::Deserializer<'de>>(from: D) -> std::result::Result<Name, D::Error> {
        #[derive(serde::Deserialize)]
        #[serde(rename = "Name")]
        struct Text(String);

        let Text(text) = Text::deserialize(from)?;
        NameRef::try_from(BStr::new(&text)).map(NameRef::to_owned).map_err(serde::de::Error::custom)
    }
}
