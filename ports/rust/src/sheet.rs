//! The release sheet: one over the counts of many reports.
#![forbid(unsafe_code)]

use crate::refusal::Lent;
use crate::{sys, Counts, Refusal};

/// The sums over the counts of many reports, and how many tests passed.
#[derive(Clone, Copy, Debug, PartialEq, Eq, Hash)]
pub struct Sheet {
    /// Exact; `disabled` is missing exactly if it is missing in all.
    pub sums: Counts,
    /// Tests without failure, error or skip: 0 where these three together exceed the tests.
    pub passed: u64,
}

fn told(reports: &[Counts]) -> Vec<sys::Counts> {
    reports.iter().map(|c| c.told()).collect()
}

/// The sheet over the counts of many reports; their order doesn't matter.
///
/// # Errors
///
/// 11 for more than 4,096 reports, 17 where a sum would pass 18446744073709551615.
///
/// ```
/// use kerzhoma::{release_sheet, Counts};
///
/// let a = Counts { tests: 3, failures: 1, ..Counts::default() };
/// let b = Counts { tests: 2, skipped: 1, disabled: Some(4), ..Counts::default() };
/// let sheet = release_sheet(&[a, b])?;
/// assert_eq!((sheet.sums.tests, sheet.sums.disabled, sheet.passed), (5, Some(4), 3));
/// assert_eq!(release_sheet(&[b, a])?, sheet);
/// assert_eq!(release_sheet(&[a; 4097]).unwrap_err().number(), 11);
/// # Ok::<(), kerzhoma::Refusal>(())
/// ```
pub fn release_sheet(reports: &[Counts]) -> Result<Sheet, Refusal> {
    let released = sys::release_sheet(&told(reports));
    Refusal::result(released.refusal, Lent::default())?;
    Ok(Sheet { sums: Counts::from(released.sheet.sums), passed: released.sheet.passed })
}

// Six lines, and seven numbers of at most 20 digits.
const LONGEST: usize = 205;

/// The same as text, a bracket form a line.
///
/// # Errors
///
/// As [`release_sheet`].
///
/// ```
/// use kerzhoma::{print_sheet, Counts};
///
/// let report = Counts { tests: 5, failures: 1, skipped: 1, ..Counts::default() };
/// assert_eq!(
///     print_sheet(&[report])?,
///     "(tests 5)\n(failures 1)\n(errors 0)\n(skipped 1)\n(disabled -)\n(passed 3 5)\n"
/// );
/// # Ok::<(), kerzhoma::Refusal>(())
/// ```
pub fn print_sheet(reports: &[Counts]) -> Result<String, Refusal> {
    let mut out = [0; LONGEST];
    let length = print_sheet_into(reports, &mut out)?;
    Ok(String::from_utf8_lossy(&out[..length.min(LONGEST)]).into_owned())
}

/// The same into an area, with zeros behind it: how many bytes it takes.
///
/// # Errors
///
/// As [`release_sheet`], then 16 where the area is too short; all of it is zero then.
pub fn print_sheet_into(reports: &[Counts], out: &mut [u8]) -> Result<usize, Refusal> {
    let printed = sys::print_sheet(&told(reports), out);
    Refusal::result(printed.refusal, Lent { out: out.len(), ..Lent::default() })?;
    Ok(printed.length)
}
