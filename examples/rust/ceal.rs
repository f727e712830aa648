//! Sessions of CEAL for Rust, over the calls of `client/ceal.h`. A session is freed when it is dropped, and, since it
//! holds a pointer, the compiler keeps it on the thread that opened it.

use std::ffi::c_void;
use std::fmt;

const FAULT_SIZE: usize = 128;

/// The statuses of the header that are looked at here.
const OK: u32 = 0;
const MORE: u32 = 10;
const FAULT: u32 = 12;

#[repr(C)]
struct Ceal {
    session: *mut c_void,
}

#[rustfmt::skip]
extern "C" {
    fn ceal_open(c: *mut Ceal, source: *const u8, size: usize, fuel: u32, fault: *mut u8, fault_size: usize) -> u32;
    fn ceal_close(c: *mut Ceal) -> u32;
    fn ceal_line(c: *mut Ceal, line: *const u8, size: usize) -> u32;
    fn ceal_reply(c: *mut Ceal, out: *mut u8, size: usize, length: *mut usize) -> u32;
    fn ceal_find(c: *mut Ceal, name: *const u8, size: usize, handle: *mut u64) -> u32;
    fn ceal_set(c: *mut Ceal, handle: u64, number: i64) -> u32;
    fn ceal_get(c: *mut Ceal, handle: u64, number: *mut i64) -> u32;
    fn ceal_propagate(c: *mut Ceal) -> u32;
    fn ceal_propagate_part(c: *mut Ceal, reads: u32) -> u32;
    fn ceal_ask(c: *mut Ceal, line: *const u8, size: usize, number: *mut i64) -> u32;
}

/// Why a call was not answered.
#[derive(Debug)]
pub enum Error {
    /// the line of the source text's first fault
    Fault(String),
    /// a status of the header that is not `CEAL_OK`
    Status(u32),
}

impl fmt::Display for Error {
    fn fmt(&self, out: &mut fmt::Formatter) -> fmt::Result {
        match self {
            Error::Fault(line) => write!(out, "{line}"),
            Error::Status(status) => write!(out, "status {status}"),
        }
    }
}

impl std::error::Error for Error {}

fn answered<T>(status: u32, value: T) -> Result<T, Error> {
    if status == OK {
        Ok(value)
    } else {
        Err(Error::Status(status))
    }
}

/// A handle of a modifiable, which is good as long as its session.
#[derive(Clone, Copy)]
pub struct Handle(u64);

pub struct Session {
    ceal: Ceal,
}

impl Session {
    /// Opens a session over the source part of a text, what is before its first line `%%`.
    pub fn open(source: &[u8], fuel: u32) -> Result<Session, Error> {
        let mut ceal = Ceal {
            session: std::ptr::null_mut(),
        };
        let mut fault = [0u8; FAULT_SIZE];
        let status = unsafe {
            ceal_open(
                &mut ceal,
                source.as_ptr(),
                source.len(),
                fuel,
                fault.as_mut_ptr(),
                fault.len(),
            )
        };
        if status == FAULT {
            let line = fault.split(|it| *it == 0).next().unwrap_or_default();
            return Err(Error::Fault(
                String::from_utf8_lossy(line).trim_end().to_string(),
            ));
        }
        answered(status, Session { ceal })
    }

    /// Carries out a line of a script, and returns its reply. Any other status than that of an answer is an error, so
    /// not only a refusal: `more` and `out of fuel` are, too.
    pub fn line(&mut self, line: &str) -> Result<Vec<u8>, Error> {
        answered(
            unsafe { ceal_line(&mut self.ceal, line.as_ptr(), line.len()) },
            (),
        )?;
        let mut length = 0;
        let mut reply = vec![0; 64];
        loop {
            let status =
                unsafe { ceal_reply(&mut self.ceal, reply.as_mut_ptr(), reply.len(), &mut length) };
            answered(status, ())?;
            let is_whole = length <= reply.len();
            reply.resize(length, 0);
            if is_whole {
                return Ok(reply);
            }
        }
    }

    pub fn find(&mut self, name: &str) -> Result<Handle, Error> {
        let mut handle = 0;
        let status = unsafe { ceal_find(&mut self.ceal, name.as_ptr(), name.len(), &mut handle) };
        answered(status, Handle(handle))
    }

    pub fn set(&mut self, handle: Handle, number: i64) -> Result<(), Error> {
        answered(unsafe { ceal_set(&mut self.ceal, handle.0, number) }, ())
    }

    pub fn get(&mut self, handle: Handle) -> Result<i64, Error> {
        let mut number = 0;
        let status = unsafe { ceal_get(&mut self.ceal, handle.0, &mut number) };
        answered(status, number)
    }

    pub fn propagate(&mut self) -> Result<(), Error> {
        answered(unsafe { ceal_propagate(&mut self.ceal) }, ())
    }

    /// Goes on as far as so many stale reads; returns whether all is up to date then.
    pub fn propagate_part(&mut self, reads: u32) -> Result<bool, Error> {
        match unsafe { ceal_propagate_part(&mut self.ceal, reads) } {
            MORE => Ok(false),
            status => answered(status, true),
        }
    }

    /// Carries out a line whose reply is a number, as `work`.
    pub fn ask(&mut self, line: &str) -> Result<i64, Error> {
        let mut number = 0;
        let status = unsafe { ceal_ask(&mut self.ceal, line.as_ptr(), line.len(), &mut number) };
        answered(status, number)
    }
}

impl Drop for Session {
    fn drop(&mut self) {
        unsafe { ceal_close(&mut self.ceal) };
    }
}
