//! `detect` and `audit` in plain Rust: yardsticks of onll's speed. The files that are not here are those of the peer's `native/src`.

mod audit;
mod detect;
mod log;
mod object;
mod sha256;
mod text;

use log::{Line, read_lines};
use object::{AnyObject, Object, Row, read_init};
use std::ffi::OsStr;
use std::fs::File;
use std::io::{Read, Write};
use std::os::unix::ffi::OsStrExt;
use text::{Out, Refused};

const USAGE: &str = "\
usage: onll fold INIT SCRIPT
       onll show IMAGE
       onll recover INIT LOGS T
       onll replay INIT SCHEDULE LOGS SCRIPT..
       onll run INIT LOGS SCRIPT..
       onll make T N SEED
       onll again INIT SCHEDULE LOGS SCRIPT..
       onll resume INIT LOGS SCRIPT..
       onll detect INIT LOGS SCRIPT..
       onll areas CKPT
       onll restore INIT LOGS CKPT T
       onll checkpoint INIT LOGS CKPT T
       onll ship LOGS T OUT
       onll follow INIT T STREAM PIECE
       onll audit INIT REPORT SCRIPT..
";
const IMAGE: u64 = 4_456_512;
const TEXT: u64 = 1 << 20;

type Word = [u8];
/// A status and what is printed: either where all was done, or where a refusal ended the call.
type Answer = (u8, Out);
type Job = Result<Answer, Answer>;

/// One line and its status.
fn says(status: u8, line: &str) -> Answer {
    let mut out = Out::default();
    out.str(line).end();
    (status, out)
}

/// One line about a file and its status.
fn says_of(status: u8, front: &str, name: &Word, rest: &str) -> Answer {
    let mut out = Out::default();
    out.str(front).bytes(name).str(rest).end();
    (status, out)
}

fn refuse(name: &Word, line: u64, reason: &str) -> Answer {
    says_of(3, "refused ", name, &format!(" {line} {reason}"))
}

/// Opens a file and reads it, or says that this failed.
fn read<T>(name: &Word, read: impl FnOnce(File) -> std::io::Result<T>) -> Result<T, Answer> {
    File::open(OsStr::from_bytes(name)).and_then(read).map_err(|_| says_of(5, "read fault ", name, ""))
}

/// A file's first bytes, one more than a text may have.
fn read_text(name: &Word, most: u64) -> Result<Vec<u8>, Answer> {
    read(name, |file| {
        let mut bytes = Vec::with_capacity(file.metadata()?.len().min(most) as usize + 1);
        file.take(most + 1).read_to_end(&mut bytes)?;
        Ok(bytes)
    })
}

fn read_image(name: &Word) -> Result<Vec<Line>, Answer> {
    read(name, |file| read_lines(file.take(IMAGE)))
}

fn judge<T>(name: &Word, got: Result<T, Refused>) -> Result<T, Answer> {
    got.map_err(|refused| refuse(name, refused.line, refused.reason))
}

fn read_scripts<O: Object>(names: &[&Word]) -> Result<Vec<Vec<Row>>, Answer> {
    names.iter().map(|name| judge(name, O::read_script(&read_text(name, TEXT)?))).collect()
}

/// Reads the initial state; the job is made for each kind of object.
macro_rules! with_init {
    ($name:expr, |$object:ident, $init:ident| $job:expr) => {{
        let $init = &read_text($name, TEXT)?;
        match judge($name, read_init($init))? {
            AnyObject::Bank($object) => $job,
            AnyObject::Map($object) => $job,
            AnyObject::Queue($object) => $job,
            AnyObject::Lease($object) => $job,
        }
    }};
}

fn job(words: &[&Word]) -> Job {
    match words {
        [b"detect", init, logs, scripts @ ..] if (1..=16).contains(&scripts.len()) => {
            with_init!(init, |object, bytes| detect::detect(object, bytes, logs, scripts))
        }
        [b"audit", init, report, scripts @ ..] if (1..=16).contains(&scripts.len()) => {
            with_init!(init, |object, _bytes| audit::audit(object, report, scripts))
        }
        _ => Err((2, Out(USAGE.as_bytes().to_vec()))),
    }
}

fn main() {
    let words: Vec<_> = std::env::args_os().skip(1).collect();
    let words: Vec<&Word> = words.iter().map(|word| word.as_bytes()).collect();
    let (status, out) = job(&words).unwrap_or_else(|refused| refused);
    let put = std::io::stdout().lock().write_all(&out.0).and_then(|()| std::io::stdout().flush());
    std::process::exit(if put.is_ok() { status as i32 } else { 6 });
}
