//! Reads texts of EDN, one a line in hexadecimal digits, and writes the forms of each.
#![tactic(auto)]

use devices::Watched;
use edn::{Form, Forms, Kind, Reader};
use std::io;
use std::io::{Read, Write};

const MOST: usize = 4_000_000;

fn main(rt: HostRuntime) -> io::Result<()> {
    let mut bytes = Vec::with_capacity(rt.alloc(), MOST)?;
    rt.stdin().read_to_end(&mut bytes)?;
    let mut out = Vec::new(rt.alloc());
    let mut rest = bytes.as_slice();
    for _ in 0..MOST {
        if rest.is_empty() {
            break;
        }
        let len = rest.iter().take_while(|byte| **byte != b'\n').count();
        answer(&rt, &rest[..len], &mut out)?;
        rest = if len < rest.len() { &rest[len + 1..] } else { &[] };
    }
    rt.stdout().write_all(&out)
}

fn value(digit: u8) -> u8 {
    match digit {
        b'0'..=b'9' => digit - b'0',
        _ => digit.wrapping_sub(87),
    }
}

fn answer(rt: &HostRuntime, digits: &[u8], out: &mut Vec<u8>) -> io::Result<()> {
    let mut text = Vec::new(rt.alloc());
    let mut left = digits;
    while let [high, low, others @ ..] = left {
        text.push(value(*high).wrapping_mul(16).wrapping_add(value(*low)))?;
        left = others;
    }
    let mut source = Watched::new(text.as_slice());
    let mut reader = Reader::new(rt.alloc());
    for _ in 0..1000 {
        match reader.read(&mut source) {
            Ok(true) => {
                show(reader.form(), 200, out)?;
                out.push(b' ')?;
            }
            Ok(false) => break,
            Err(fault) => {
                write!(out, "! {fault}")?;
                break;
            }
        }
    }
    out.push(b'\n')?;
    Ok(())
}

fn hex(word: &str, bytes: &[u8], out: &mut Vec<u8>) -> io::Result<()> {
    out.extend_from_slice(word.as_bytes())?;
    for byte in bytes {
        write!(out, "{byte:02x}")?;
    }
    Ok(())
}

fn show(form: Form, depth: u32, out: &mut Vec<u8>) -> io::Result<()> {
    match form.kind() {
        Kind::Nil => out.extend_from_slice(b"nil")?,
        Kind::Boolean(b) => write!(out, "{b}")?,
        Kind::Integer(n) => write!(out, "i{n}")?,
        Kind::Number(text) => hex("n", text, out)?,
        Kind::String(text) => hex("s", text, out)?,
        Kind::Character(text) => hex("c", text, out)?,
        Kind::Keyword(text) => hex("k", text, out)?,
        Kind::Symbol(text) => hex("y", text, out)?,
        Kind::List(forms) => all("(", forms, depth, out)?,
        Kind::Vector(forms) => all("[", forms, depth, out)?,
        Kind::Set(forms) => all("#", forms, depth, out)?,
        Kind::Map(forms) => all("{", forms, depth, out)?,
        Kind::NamespacedMap(forms) => all("#:", forms, depth, out)?,
    }
    Ok(())
}

/// The forms stand in it from the last one back.
fn all(open: &str, forms: Forms, depth: u32, out: &mut Vec<u8>) -> io::Result<()> {
    out.extend_from_slice(open.as_bytes())?;
    let mut left = forms;
    let Some(below) = depth.checked_sub(1) else {
        return Ok(());
    };
    while let Some(form) = left.next_back() {
        out.push(b' ')?;
        show(form, below, out)?;
    }
    out.extend_from_slice(b" )")?;
    Ok(())
}
