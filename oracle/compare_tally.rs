//! What was compared, counted by class and verdict.

use crate::ask_gateway::Whose;

#[derive(Clone, Default)]
pub struct Row {
    pub name: String,
    pub verdicts: [u64; 8],
    pub panics: u64,
    pub cuts: u64,
}

impl Row {
    pub fn new(name: &str) -> Self {
        Row {
            name: name.to_string(),
            ..Row::default()
        }
    }

    pub fn count(&mut self, verdict: u8, whose: Whose) {
        self.verdicts[usize::from(verdict)] += 1;
        self.panics += u64::from(whose == Whose::WherePanics);
        self.cuts += u64::from(whose == Whose::WhereCuts);
    }

    pub fn add(&mut self, other: &Row) {
        for (sum, more) in self.verdicts.iter_mut().zip(other.verdicts) {
            *sum += more;
        }
        self.panics += other.panics;
        self.cuts += other.cuts;
    }

    pub fn calls(&self) -> u64 {
        self.verdicts.iter().sum()
    }

    /// The row as one process tells it to the other.
    pub fn told(&self) -> String {
        let numbers: Vec<_> = self
            .verdicts
            .iter()
            .chain([&self.panics, &self.cuts])
            .collect();
        let words: Vec<_> = numbers.iter().map(|number| number.to_string()).collect();
        format!("{}\t{}", words.join("\t"), self.name)
    }

    pub fn heard(told: &str) -> Self {
        let mut words = told.splitn(11, '\t');
        let mut number = || words.next().unwrap().parse().unwrap();
        let verdicts = std::array::from_fn(|_| number());
        let (panics, cuts) = (number(), number());
        Row {
            name: words.next().unwrap().to_string(),
            verdicts,
            panics,
            cuts,
        }
    }
}

/// 12345678 as 12,345,678.
pub fn grouped(number: u64) -> String {
    let digits = number.to_string();
    let mut text = String::new();
    for (place, digit) in digits.chars().enumerate() {
        if place > 0 && (digits.len() - place) % 3 == 0 {
            text.push(',');
        }
        text.push(digit);
    }
    text
}

pub fn sum<'a>(name: &str, rows: impl IntoIterator<Item = &'a Row>) -> Row {
    let mut sum = Row::new(name);
    for row in rows {
        sum.add(row);
    }
    sum
}

const NAME_WIDTH: usize = 54;

pub fn head() -> String {
    let verdicts = [
        "0 drop",
        "1 reply",
        "2 DNS",
        "3 relay",
        "4 TCP",
        "5 room",
        "6 long",
        "7 cut type",
    ];
    let mut line = format!("{:NAME_WIDTH$}{:>11}", "class", "calls");
    for words in verdicts.iter().chain(&["panics", "cuts"]) {
        line += &format!("{words:>11}");
    }
    line
}

pub fn line(row: &Row) -> String {
    let mut line = format!("{:NAME_WIDTH$}{:>11}", row.name, grouped(row.calls()));
    for number in row.verdicts.iter().chain([&row.panics, &row.cuts]) {
        line += &format!("{:>11}", grouped(*number));
    }
    line
}
