//! Stand-in for strip-ansi-escapes: nothing is stripped, as rule X8 has the filter only (docs/DIFFERENCES.md).
pub fn strip_str(data: impl AsRef<str>) -> String {
    data.as_ref().to_string()
}
