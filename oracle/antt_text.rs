//! Bytes and numbers as antt writes them. Bytes that often come together have a name in the table,
//! and many zeros are `replicate`.

/// A name of the table: what it is, how it is called, and its bytes; where it has arguments, these
/// are the bytes at some places of it.
pub struct Name {
    pub what: &'static str,
    pub name: &'static str,
    pub bytes: Vec<u8>,
    pub arguments: Vec<(usize, &'static str)>,
}

impl Name {
    fn starts(&self, bytes: &[u8]) -> bool {
        let is_argument = |at| self.arguments.iter().any(|(place, _)| *place == at);
        let mut places = self.bytes.iter().zip(bytes).enumerate();
        self.bytes.len() <= bytes.len()
            && places.all(|(at, (own, byte))| own == byte || is_argument(at))
    }

    fn used(&self, bytes: &[u8]) -> String {
        let mut text = self.name.to_string();
        for (place, _) in &self.arguments {
            text += &format!(" {}", hex(bytes[*place]));
        }
        text
    }

    /// Its definition.
    pub fn definition(&self) -> String {
        let Name { what, name, .. } = self;
        let remark = match *what {
            "" => String::new(),
            what => format!("-- {what}\n"),
        };
        let mut bytes = written_out(&self.bytes);
        if self.arguments.is_empty() {
            return format!("\n{remark}abbrev pub {name} : List ℕ\n{name} = {bytes}\n");
        }
        let mut words = vec![];
        for (place, argument) in &self.arguments {
            bytes = bytes.replacen(&hex(self.bytes[*place]), argument, 1);
            words.push(*argument);
        }
        let words = words.join(" ");
        let kind = format!("({words} : ℕ) → List ℕ");
        format!("\n{remark}abbrev pub {name} : {kind}\n{name} {words} = {bytes}\n")
    }
}

pub struct Writer {
    names: Vec<Name>,
}

const ZEROS_WORTH_COUNTING: usize = 6;

impl Writer {
    /// The longest name that fits is taken.
    pub fn new(mut names: Vec<Name>) -> Self {
        names.sort_by_key(|name| std::cmp::Reverse(name.bytes.len()));
        Writer { names }
    }

    /// The list, new parts starting at these places.
    pub fn list(&self, bytes: &[u8], parts_at: &[usize]) -> String {
        let mut written = vec![];
        let mut start = 0;
        while start < bytes.len() {
            let later = parts_at.iter().copied().filter(|at| *at > start);
            let end = later.min().unwrap_or(bytes.len()).min(bytes.len());
            // A name may be longer than a part.
            match self.name_of(&bytes[start..], end - start + 1) {
                Some(name) => {
                    written.push(name.used(&bytes[start..]));
                    start += name.bytes.len();
                }
                None => {
                    self.part(&bytes[start..end], &mut written);
                    start = end;
                }
            }
        }
        match &written[..] {
            [] => "[]".to_string(),
            _ => written.join(" ++ "),
        }
    }

    /// The same as an argument.
    pub fn argument(&self, bytes: &[u8], parts_at: &[usize]) -> String {
        let list = self.list(bytes, parts_at);
        let one_word = !list.contains(' ');
        let one_part = list.starts_with('(') && !list.contains(" ++ ");
        if one_word || one_part {
            list
        } else {
            format!("({list})")
        }
    }

    fn name_of(&self, bytes: &[u8], at_least: usize) -> Option<&Name> {
        let fits = |name: &&Name| name.bytes.len() >= at_least && name.starts(bytes);
        self.names.iter().find(fits)
    }

    fn part(&self, bytes: &[u8], written: &mut Vec<String>) {
        let mut single = String::new();
        let mut start = 0;
        while start < bytes.len() {
            let rest = &bytes[start..];
            let zeros = rest.iter().take_while(|byte| **byte == 0).count();
            let (text, len) = match self.name_of(rest, 1) {
                Some(name) => (name.used(rest), name.bytes.len()),
                None if zeros >= ZEROS_WORTH_COUNTING => (format!("replicate {zeros} 0"), zeros),
                None => {
                    single += &format!("{} ∷ ", hex(rest[0]));
                    start += 1;
                    continue;
                }
            };
            flush(&mut single, written);
            written.push(text);
            start += len;
        }
        flush(&mut single, written);
    }
}

fn flush(single: &mut String, written: &mut Vec<String>) {
    if !single.is_empty() {
        written.push(format!("({single}[])"));
        single.clear();
    }
}

/// A list with no name in it, as a definition has it.
fn written_out(bytes: &[u8]) -> String {
    let list = Writer::new(vec![]).list(bytes, &[]);
    match list
        .strip_prefix('(')
        .and_then(|list| list.strip_suffix(')'))
    {
        Some(one_part) if !one_part.contains('(') => one_part.to_string(),
        _ => list,
    }
}

pub fn hex(byte: u8) -> String {
    format!("0x{byte:02x}")
}

pub fn hex32(number: u32) -> String {
    match number {
        0 => "0".to_string(),
        _ => format!("0x{number:08x}"),
    }
}
