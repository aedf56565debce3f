//! Decimals in units of 10^-18.

pub const ONE: i128 = 1_000_000_000_000_000_000;

/// The decimal of a text, if it has one that is a whole number of units and at most 10^18.
pub fn parse(text: &[u8]) -> Option<i128> {
    let (negative, text) = match text {
        [b'-', rest @ ..] => (true, rest),
        [b'+', rest @ ..] => (false, rest),
        _ => (false, text),
    };
    let (mut units, mut digits, mut places, mut point, mut exponent) = (0i128, 0, 0i32, false, 0i32);
    for (at, byte) in text.iter().enumerate() {
        match byte {
            b'0'..=b'9' => {
                units = units.checked_mul(10)?.checked_add(i128::from(byte - b'0'))?;
                digits += 1;
                places += i32::from(point);
            }
            b'.' if !point => point = true,
            b'e' | b'E' => {
                exponent = std::str::from_utf8(&text[at + 1..]).ok()?.parse().ok()?;
                break;
            }
            _ => return None,
        }
    }
    if digits == 0 {
        return None;
    }
    let shift = 18i32.checked_add(exponent)?.checked_sub(places)?;
    let power = 10i128.checked_pow(shift.unsigned_abs())?;
    if shift >= 0 {
        units = units.checked_mul(power)?;
    } else if units % power == 0 {
        units /= power;
    } else {
        return None;
    }
    (units <= ONE * ONE).then_some(if negative { -units } else { units })
}
