//! Numbers as the tables have them.

pub fn nanoseconds(number: f64) -> String {
    if number < 99.95 {
        return format!("{number:.1}");
    }
    grouped(number.round() as u64)
}

pub fn grouped(number: u64) -> String {
    if number < 1_000 {
        return number.to_string();
    }
    format!("{},{:03}", grouped(number / 1_000), number % 1_000)
}
