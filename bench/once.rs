//! The loop that `once.py` compares with the plant: it reads pieces of 64 KiB, gathers each message as a session does, and
//! writes one fixed reply for each that is sync, in one write. It decodes, judges and keeps nothing.
//!
//! Its argument is the reply, in hexadecimal.

use std::fs::File;
use std::io::{Error, ErrorKind, Read, Result, Write};
use std::mem::ManuallyDrop;
use std::os::fd::FromRawFd;

const PIECE: usize = 65536;
const HEADER: usize = 8;
const SYNC: u8 = 1;
const CAPABILITY: [u8; 1] = [3];

/// Standard input or output, without a buffer.
fn raw(descriptor: i32) -> ManuallyDrop<File> {
    ManuallyDrop::new(unsafe { File::from_raw_fd(descriptor) })
}

fn bad(what: &str) -> Error {
    Error::new(ErrorKind::InvalidData, what)
}

fn from_hexadecimal(text: &str) -> Result<Vec<u8>> {
    let digits = text.as_bytes().chunks(2);
    digits
        .map(|pair| std::str::from_utf8(pair).ok().and_then(|pair| u8::from_str_radix(pair, 16).ok()))
        .collect::<Option<_>>()
        .ok_or_else(|| bad("the reply isn't hexadecimal"))
}

/// The message's length, where its header is whole.
fn length(message: &[u8]) -> Result<Option<usize>> {
    let Some(header) = message.get(..HEADER) else { return Ok(None) };
    let length = u32::from_le_bytes([header[4], header[5], header[6], header[7]]) as usize;
    if length > HEADER { Ok(Some(length)) } else { Err(bad("a short message")) }
}

/// Moves to the message what it still needs of the piece, and returns whether it is whole.
fn gather(message: &mut Vec<u8>, piece: &mut &[u8]) -> Result<bool> {
    loop {
        let wanted = length(message)?.unwrap_or(HEADER) - message.len();
        let (front, rest) = piece.split_at(wanted.min(piece.len()));
        message.extend_from_slice(front);
        *piece = rest;
        match length(message)? {
            Some(length) if length == message.len() => return Ok(true),
            _ if piece.is_empty() => return Ok(false),
            _ => {}
        }
    }
}

fn main() -> Result<()> {
    let reply = from_hexadecimal(&std::env::args().nth(1).unwrap_or_default())?;
    let (mut input, mut output) = (raw(0), raw(1));
    let (mut room, mut message, mut greeted) = (vec![0; PIECE], Vec::new(), false);
    loop {
        let count = input.read(&mut room)?;
        let mut piece = &room[..count];
        if count == 0 {
            return if greeted && message.is_empty() { Ok(()) } else { Err(bad("the input ends within a message")) };
        }
        if !greeted {
            let end = piece.iter().position(|byte| *byte == 0).ok_or_else(|| bad("the first piece ends within the handshake"))?;
            output.write_all(&CAPABILITY)?;
            (piece, greeted) = (&piece[end + 1..], true);
        }
        while !piece.is_empty() && gather(&mut message, &mut piece)? {
            if message[1] == SYNC {
                output.write_all(&reply)?;
            }
            message.clear();
        }
    }
}
