//! Reads texts of kind 01 with what the base has to make of them, opens each with the base's library and
//! looks whether the image that it writes then is that. `base.sh` links it and hands the texts over.
//!
//! Each pair is a line with two lengths, the text, and the image that the base has to write.

use std::io::{self, BufRead};
use std::path::PathBuf;
use std::process::ExitCode;

const USAGE: &str = "usage: base [--altered] KEPT < TEXTS
  --altered  each text has one wrong digit: the base has to refuse it, or to write another image
  KEPT       where the text goes at which it stops";

/// As the base's header declares them.
mod c {
    extern "C" {
        pub fn pokerbox_open(
            text: *const u8,
            text_len: usize,
            area: *mut u8,
            area_len: usize,
        ) -> u64;
        pub fn pokerbox_sound(area: *const u8, area_len: usize) -> u64;
        pub fn pokerbox_image(
            area: *const u8,
            area_len: usize,
            out: *mut u8,
            out_len: usize,
            length: *mut u64,
        ) -> u64;
    }
}

fn open(text: &[u8], area: &mut [u8]) -> u64 {
    unsafe { c::pokerbox_open(text.as_ptr(), text.len(), area.as_mut_ptr(), area.len()) }
}

fn sound(area: &[u8]) -> u64 {
    unsafe { c::pokerbox_sound(area.as_ptr(), area.len()) }
}

fn image(area: &[u8], out: &mut [u8], length: &mut u64) -> u64 {
    unsafe {
        c::pokerbox_image(
            area.as_ptr(),
            area.len(),
            out.as_mut_ptr(),
            out.len(),
            length,
        )
    }
}

/// The bytes that the base's area needs: 2B + 2P × (512 + 64K) + 512T + 512. Nothing where the text does not
/// begin with limits in range.
fn need(text: &[u8]) -> Option<usize> {
    let digits = std::str::from_utf8(text.get(2..34)?).ok()?;
    let limit = |at: usize, top: usize| {
        let limit = usize::from_str_radix(&digits[at..at + 8], 16).ok()?;
        (limit <= top).then_some(limit)
    };
    let (p, b) = (limit(0, 1_024)?, limit(8, 16_777_216)?);
    let (t, k) = (limit(16, 1_024)?, limit(24, 128)?);
    Some(2 * b + 2 * p * (512 + 64 * k) + 512 * t + 512)
}

/// The image that the base writes of what it opened, or what it gave back instead.
fn again(text: &[u8]) -> Result<Vec<u8>, String> {
    let mut area = vec![0; need(text).ok_or("no limits in range")?];
    let answered = |call: &str, number: u64| match number {
        100 => Ok(()),
        number => Err(format!("{call} gave back {number}")),
    };
    answered("open", open(text, &mut area))?;
    answered("sound", sound(&area))?;
    let (mut out, mut length) = (vec![0; 2 * area.len() + 4_096], 0);
    answered("image", image(&area, &mut out, &mut length))?;
    out.truncate(length as usize);
    Ok(out)
}

/// A text and the image that the base has to write; nothing at the end.
fn next(input: &mut impl BufRead) -> Result<Option<(Vec<u8>, Vec<u8>)>, String> {
    let mut line = String::new();
    let read = input.read_line(&mut line);
    if read.map_err(|error| error.to_string())? == 0 {
        return Ok(None);
    }
    let lengths = line.split_whitespace().map(str::parse::<usize>);
    let lengths: Vec<usize> = lengths
        .collect::<Result<_, _>>()
        .map_err(|_| format!("no lengths: {line}"))?;
    let [text, right] = lengths[..] else {
        return Err(format!("not two lengths: {line}"));
    };
    let mut taken = |length: usize| {
        let mut bytes = vec![0; length];
        let read = input.read_exact(&mut bytes);
        read.map_err(|error| error.to_string()).map(|()| bytes)
    };
    Ok(Some((taken(text)?, taken(right)?)))
}

fn run() -> Result<(), String> {
    let arguments: Vec<String> = std::env::args().skip(1).collect();
    let (altered, kept) = match &arguments[..] {
        [option, kept] if option == "--altered" => (true, PathBuf::from(kept)),
        [kept] if !kept.starts_with('-') => (false, PathBuf::from(kept)),
        _ => return Err(USAGE.into()),
    };
    let mut input = io::stdin().lock();
    let (mut texts, mut refused) = (0_u64, 0_u64);
    while let Some((text, right)) = next(&mut input)? {
        let found = again(&text);
        let same = found.as_ref() == Ok(&right);
        if same == altered {
            std::fs::write(&kept, &text).map_err(|error| error.to_string())?;
            let what = match found {
                Err(found) => found,
                Ok(_) if altered => "the wrong digit is not noticed".into(),
                Ok(_) => "it writes another image".into(),
            };
            let kept = kept.display();
            return Err(format!("text {texts} (from 0), in {kept}: {what}"));
        }
        refused += u64::from(found.is_err());
        texts += 1;
        if texts % 10_000 == 0 {
            eprintln!("base: {texts} texts");
        }
    }
    if texts == 0 {
        return Err("no texts".into());
    }
    match altered {
        false => println!("base: {texts} texts opened, and written again as they have to be"),
        true => println!(
            "base: {texts} texts with a wrong digit: {refused} refused, {} written as another image",
            texts - refused
        ),
    }
    Ok(())
}

fn main() -> ExitCode {
    match run() {
        Ok(()) => ExitCode::SUCCESS,
        Err(error) => {
            eprintln!("base: {error}");
            ExitCode::FAILURE
        }
    }
}
