//! A filter that serves one connection after another, and refuses a recipient that takes no mail.
//!
//!     rustc -O filter.rs $(pkg-config --libs deiruska)
//!     ./filter 127.0.0.1:8891

use std::io::{Error, Read, Write};
use std::net::{TcpListener, TcpStream};
use std::os::raw::c_void;
use std::ptr::null_mut;
use std::slice::from_raw_parts;

const REFUSED: &[u8] = b"<noreply@example.net>";
const REFUSAL: &[u8] = b"550 5.1.1 This address takes no mail";
const PROTOCOL_NOBODY: u32 = 0x10;
const STAGE_RCPT: u32 = 4;
const STEP_FEED: i32 = 0;
const STEP_SEND: i32 = 1;
const STEP_ANSWER: i32 = 2;

/// A handle of any kind: in deiruska.h each is a struct of this one.
#[repr(C)]
struct Handle {
    at: *mut c_void,
    full: bool,
}

#[repr(C)]
struct Bytes {
    at: *const u8,
    len: usize,
}

extern "C" {
    fn deiruska_free(handle: *mut Handle);
    fn deiruska_filter_new(filter: *mut Handle, version: u32, actions: u32, protocol: u32) -> i32;
    fn deiruska_filter_step(filter: *mut Handle) -> i32;
    fn deiruska_filter_feed(filter: *mut Handle, at: *const u8, len: usize, taken: *mut usize) -> i32;
    fn deiruska_filter_asked(filter: *mut Handle, stage: *mut u32) -> i32;
    fn deiruska_filter_pending(filter: *mut Handle, out: *mut Bytes) -> i32;
    fn deiruska_filter_sent(filter: *mut Handle, count: usize) -> i32;
    fn deiruska_filter_answer(filter: *mut Handle, answer: *mut Handle) -> i32;
    fn deiruska_filter_recipients(filter: *mut Handle, count: *mut usize) -> i32;
    fn deiruska_filter_recipient(filter: *mut Handle, place: usize, out: *mut Bytes) -> i32;
    fn deiruska_answer_new(answer: *mut Handle) -> i32;
    fn deiruska_answer_code(answer: *mut Handle, at: *const u8, len: usize) -> i32;
}

impl Handle {
    const EMPTY: Handle = Handle { at: null_mut(), full: false };
}

impl Drop for Handle {
    fn drop(&mut self) {
        unsafe { deiruska_free(self) }
    }
}

fn check(result: i32) -> Result<(), Error> {
    match result {
        0 => Ok(()),
        number => Err(Error::other(format!("deiruska: {number}"))),
    }
}

/// A filter's end of a connection. What it gives out is borrowed from it, so no call comes before that borrow ends.
struct Filter(Handle);

impl Filter {
    fn new() -> Result<Filter, Error> {
        let mut handle = Handle::EMPTY;
        check(unsafe { deiruska_filter_new(&mut handle, 6, 0, PROTOCOL_NOBODY) })?;
        Ok(Filter(handle))
    }

    fn step(&mut self) -> i32 {
        unsafe { deiruska_filter_step(&mut self.0) }
    }

    fn feed(&mut self, piece: &[u8]) -> Result<usize, Error> {
        let mut taken = 0;
        check(unsafe { deiruska_filter_feed(&mut self.0, piece.as_ptr(), piece.len(), &mut taken) })?;
        Ok(taken)
    }

    fn pending(&mut self) -> Result<&[u8], Error> {
        let mut out = Bytes { at: [].as_ptr(), len: 0 };
        check(unsafe { deiruska_filter_pending(&mut self.0, &mut out) })?;
        Ok(unsafe { from_raw_parts(out.at, out.len) })
    }

    fn sent(&mut self, count: usize) -> Result<(), Error> {
        check(unsafe { deiruska_filter_sent(&mut self.0, count) })
    }

    fn last_recipient(&mut self) -> Result<&[u8], Error> {
        let (mut count, mut out) = (0, Bytes { at: [].as_ptr(), len: 0 });
        check(unsafe { deiruska_filter_recipients(&mut self.0, &mut count) })?;
        check(unsafe { deiruska_filter_recipient(&mut self.0, count.wrapping_sub(1), &mut out) })?;
        Ok(unsafe { from_raw_parts(out.at, out.len) })
    }

    /// Answers the open question.
    fn answer(&mut self) -> Result<(), Error> {
        let (mut answer, mut stage) = (Handle::EMPTY, 0);
        check(unsafe { deiruska_answer_new(&mut answer) })?;
        check(unsafe { deiruska_filter_asked(&mut self.0, &mut stage) })?;
        if stage == STAGE_RCPT && self.last_recipient()? == REFUSED {
            check(unsafe { deiruska_answer_code(&mut answer, REFUSAL.as_ptr(), REFUSAL.len()) })?;
        }
        check(unsafe { deiruska_filter_answer(&mut self.0, &mut answer) })
    }
}

/// Serves a connection until the mail server quits or is gone.
fn serve(connection: &mut TcpStream) -> Result<(), Error> {
    let mut filter = Filter::new()?;
    let mut piece = vec![0; 65536];
    let (mut at, mut end) = (0, 0);
    loop {
        match filter.step() {
            STEP_SEND => {
                let count = connection.write(filter.pending()?)?;
                filter.sent(count)?;
            }
            STEP_ANSWER => filter.answer()?,
            STEP_FEED if at < end => at += filter.feed(&piece[at..end])?,
            STEP_FEED => {
                (at, end) = (0, connection.read(&mut piece)?);
                if end == 0 {
                    return Ok(());
                }
            }
            _ => return Ok(()),
        }
    }
}

fn main() -> Result<(), Error> {
    let address = std::env::args().nth(1).expect("usage: filter HOST:PORT");
    for connection in TcpListener::bind(address)?.incoming() {
        if let Err(fault) = serve(&mut connection?) {
            eprintln!("{fault}");
        }
    }
    Ok(())
}
