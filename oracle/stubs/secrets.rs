//! No secret is ever bound here, so the type has no value.

pub enum SecretBinding {}
