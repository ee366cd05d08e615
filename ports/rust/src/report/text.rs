//! Texts that are fit for XML.
#![forbid(unsafe_code)]

use std::{borrow::Borrow, cmp::Ordering, fmt, hash::Hash, ops::Deref};

/// An owned text without the control characters that XML doesn't have.
///
/// Quick-junit strips ANSI escape sequences, too; here the characters of a sequence that XML has stay.
///
/// ```
/// use kerzhoma::report::XmlString;
/// assert_eq!(XmlString::new("a\u{0}b\n").as_str(), "ab\n");
/// assert_eq!(XmlString::new("\u{1b}[31mred").as_str(), "[31mred");
/// ```
#[derive(Clone, Debug, PartialEq, Eq)]
pub struct XmlString {
    data: Box<str>,
}

/// The text of standard output or standard error.
pub type Output = XmlString;

fn is_filtered(c: char) -> bool {
    matches!(c, '\x00'..='\x08' | '\x0b' | '\x0c' | '\x0e'..='\x1f')
}

impl XmlString {
    /// A text without the characters U+0000 to U+0008, U+000B, U+000C and U+000E to U+001F.
    pub fn new(data: impl AsRef<str>) -> Self {
        let data = data.as_ref();
        if data.bytes().any(|b| is_filtered(char::from(b))) {
            XmlString { data: data.replace(is_filtered, "").into_boxed_str() }
        } else {
            XmlString { data: data.into() }
        }
    }

    // A text of a layout, which has none of these characters.
    pub(super) fn kept(data: &str) -> Self {
        XmlString { data: data.into() }
    }

    /// The text.
    pub fn as_str(&self) -> &str {
        &self.data
    }

    /// The text, as a string of the standard library.
    pub fn into_string(self) -> String {
        self.data.into_string()
    }
}

impl<T: AsRef<str>> From<T> for XmlString {
    fn from(s: T) -> Self {
        XmlString::new(s)
    }
}

impl From<XmlString> for String {
    fn from(s: XmlString) -> Self {
        s.into_string()
    }
}

impl Deref for XmlString {
    type Target = str;

    fn deref(&self) -> &str {
        &self.data
    }
}

impl Borrow<str> for XmlString {
    fn borrow(&self) -> &str {
        &self.data
    }
}

impl PartialOrd for XmlString {
    fn partial_cmp(&self, other: &Self) -> Option<Ordering> {
        Some(self.cmp(other))
    }
}

impl Ord for XmlString {
    fn cmp(&self, other: &Self) -> Ordering {
        self.data.cmp(&other.data)
    }
}

impl Hash for XmlString {
    // as a `str`, which it borrows as
    fn hash<H: std::hash::Hasher>(&self, state: &mut H) {
        self.data.hash(state);
    }
}

impl PartialEq<str> for XmlString {
    fn eq(&self, other: &str) -> bool {
        &*self.data == other
    }
}

impl PartialEq<XmlString> for str {
    fn eq(&self, other: &XmlString) -> bool {
        self == &*other.data
    }
}

impl PartialEq<String> for XmlString {
    fn eq(&self, other: &String) -> bool {
        &*self.data == other
    }
}

impl fmt::Display for XmlString {
    fn fmt(&self, f: &mut fmt::Formatter<'_>) -> fmt::Result {
        f.write_str(&self.data)
    }
}
