//! The oracle's way to write JSON.
use std::fmt::Write;

pub fn text(out: &mut String, value: &str) {
    out.push('"');
    for c in value.chars() {
        match c {
            '"' => out.push_str("\\\""),
            '\\' => out.push_str("\\\\"),
            c if (c as u32) < 0x20 || (c as u32) == 0x7f => {
                let _ = write!(out, "\\u{:04x}", c as u32);
            }
            c => out.push(c),
        }
    }
    out.push('"');
}

/// `[a,b,c]`, where `item` writes each.
pub fn list<E>(out: &mut String, count: u32, mut item: impl FnMut(&mut String, u32) -> Result<(), E>) -> Result<(), E> {
    out.push('[');
    for k in 0..count {
        if k > 0 {
            out.push(',');
        }
        item(out, k)?;
    }
    out.push(']');
    Ok(())
}
