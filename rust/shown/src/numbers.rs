//! Doubles as text that reads back as the same double.

/// A double's text.
pub fn text(x: f64) -> String {
    if x.is_nan() {
        return "NaN".to_string();
    }
    match ten_thousandths(x.abs()) {
        Some(k) => decimals(x.is_sign_negative(), k),
        None => format!("0x{:016x}", x.to_bits()),
    }
}

/// The whole multiple of 1/10,000 that this double stands for, if it is short enough to print.
fn ten_thousandths(size: f64) -> Option<u64> {
    let y = 10_000.0 * size + 0.5;
    let k = y.trunc();
    let short = k < (1u64 << 51) as f64;
    (short && k / 10_000.0 == size).then_some(k as u64)
}

/// k / 10,000 without zeros at the end.
fn decimals(negative: bool, k: u64) -> String {
    let sign = if negative { "-" } else { "" };
    let (units, fraction) = (k / 10_000, k % 10_000);
    if fraction == 0 {
        return format!("{sign}{units}");
    }
    let digits = format!("{fraction:04}");
    format!("{sign}{units}.{}", digits.trim_end_matches('0'))
}

/// A number times a column. A negative one brings its sign along, in its bits where it is not in
/// decimals.
pub fn term(x: f64, column: &str) -> String {
    let below = x < 0.0 || (x == 0.0 && x.is_sign_negative());
    let plus = if below { "" } else { "+" };
    format!(" {plus}{}\u{b7}{column}", text(x))
}
