//! Nothing is traced here: the tracer has no value, and so its methods never run.

pub enum Tracer {}

/// Stands for the JSON value of a traced field.
pub struct Value;

impl Tracer {
    pub fn traces_network(&self) -> bool {
        match *self {}
    }

    pub fn record(&self, _kind: &str, _fields: &[(&str, Value)]) {
        match *self {}
    }

    pub fn name_of(&self, _address: [u8; 4]) -> Option<String> {
        match *self {}
    }
}

impl From<String> for Value {
    fn from(_: String) -> Self {
        Value
    }
}

impl From<Option<String>> for Value {
    fn from(_: Option<String>) -> Self {
        Value
    }
}

impl From<u16> for Value {
    fn from(_: u16) -> Self {
        Value
    }
}

pub fn format_address(_address: [u8; 4]) -> String {
    String::new()
}
