//! The numbers of a text tape: what each is for, and the one way to write it.

use crate::text_line::{begins_with_0x, shown};

/// What a number is for, and which numbers are of use there.
pub struct Field {
    pub name: &'static str,
    range: &'static str,
}

pub const OWNER: Field = Field { name: "owner", range: "owners are 0 to 15" };
pub const SEAT: Field = Field { name: "seat", range: "seats are 0 to 63" };
pub const RECORD: Field =
    Field { name: "record", range: "a record is 0 to the record count less one, at most 1023" };
pub const VALUE: Field = Field { name: "value", range: "values are 0 to 18446744073709551615" };
pub const COUNT: Field = Field { name: "record count", range: "a record count is 1 to 1024" };
pub const START: Field = Field { name: "start", range: "a start is 0 to 281474976710655" };
pub const SHARE: Field = Field { name: "share", range: "shares are 0 to 64" };
pub const LIMIT: Field = Field { name: "limit", range: "limits are 0 to 64" };

/// A number of a field. One that is out of range but fits the tape is taken: the monitor refuses
/// it, and a lesson may want to show that.
pub fn number<T: TryFrom<u64>>(field: &Field, word: &str) -> Result<T, String> {
    let Field { name, range } = field;
    if !is_digits(word) {
        return Err(format!("{name} '{}' {}: {range}", shown(word), why_no_number(word)));
    }
    let too_great = || format!("{name} {}: {range}", shown(word));
    let number: u64 = word.parse().map_err(|_| too_great())?;
    let fitting = T::try_from(number).map_err(|_| too_great())?;
    if number.to_string() != word {
        return Err(format!("{name} {}: write it as {number}", shown(word)));
    }
    Ok(fitting)
}

fn is_digits(word: &str) -> bool {
    !word.is_empty() && word.bytes().all(|byte| byte.is_ascii_digit())
}

/// Why a word that is not made of digits alone is no number.
fn why_no_number(word: &str) -> &'static str {
    if word.strip_prefix(['-', '−', '–']).is_some_and(is_digits) {
        return "has a minus";
    }
    if word.strip_prefix('+').is_some_and(is_digits) {
        return "has a plus, and numbers are written without one";
    }
    if word.split_once('.').is_some_and(|(whole, part)| is_digits(whole) && is_digits(part)) {
        return "has a decimal point, and numbers are whole";
    }
    if begins_with_0x(word) {
        return "begins with 0x, and numbers are written with the digits 0 to 9 alone";
    }
    if word.chars().all(char::is_numeric) {
        return "has other digits than 0 to 9";
    }
    "is not a number"
}
