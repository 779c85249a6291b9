//! The command `pattern` as one function of a WebAssembly module: words and files in, what it tells and writes out.
//!
//! What passes the border is a block of bytes: counts and lengths as 32-bit numbers, lowest byte first, each text or
//! content behind its length. A page asks for `space`, lays the question there, and reads the block that `answer` gives.

mod block;

use std::alloc::{self, Layout};
use std::ffi::OsString;
use std::io;
use std::sync::Mutex;

use block::{Reader, Writer};
use pattern_command::disk::table;
use pattern_command::program::{self, Listener};

/// The words of the last panic, for the page: the module stops where one is.
static PANIC: Mutex<Vec<u8>> = Mutex::new(Vec::new());

/// What the command tells.
#[derive(Default)]
struct Told {
    out: Vec<u8>,
    lines: Vec<String>,
}

impl Listener for Told {
    fn print(&mut self, out: &[u8]) -> io::Result<()> {
        self.out.extend(out);
        Ok(())
    }

    fn tell(&mut self, line: &str) {
        self.lines.push(line.trim_end().to_string());
    }
}

/// Space for a question of so many bytes; `answer` gives it back.
#[no_mangle]
pub extern "C" fn space(len: usize) -> *mut u8 {
    match Layout::array::<u8>(len.max(1)) {
        // SAFETY: the layout is not of size 0.
        Ok(layout) => unsafe { alloc::alloc(layout) },
        Err(_) => std::ptr::null_mut(),
    }
}

/// Answers a question: a list of words, then a list of files, each a name and its content. The answer begins with its
/// own length; then come the exit status, standard output, the lines of standard error, and the files that were
/// written. It stands until the next call.
///
/// # Safety
///
/// The question was laid in `len` bytes of space that `space` gave for `len`.
#[no_mangle]
pub unsafe extern "C" fn answer(question: *mut u8, len: usize) -> *const u8 {
    let question = Vec::from_raw_parts(question, len, len.max(1));
    keep(&ANSWER, told(&question))
}

/// The words of the panic that stopped the module: their length, then they.
#[no_mangle]
pub extern "C" fn panicked() -> *const u8 {
    let words = PANIC.lock().map_or(Vec::new(), |words| words.clone());
    let mut block = Writer::default();
    block.bytes(&words);
    keep(&ANSWER, block.done())
}

/// The block that was answered last.
static ANSWER: Mutex<Vec<u8>> = Mutex::new(Vec::new());

/// Keeps a block until the next one: where it stands.
fn keep(place: &Mutex<Vec<u8>>, block: Vec<u8>) -> *const u8 {
    match place.lock() {
        Ok(mut kept) => {
            *kept = block;
            kept.as_ptr()
        }
        Err(_) => std::ptr::null(),
    }
}

/// Runs the command on a question: the block of its answer.
fn told(question: &[u8]) -> Vec<u8> {
    std::panic::set_hook(Box::new(|panic| {
        if let Ok(mut words) = PANIC.lock() {
            *words = panic.to_string().into_bytes();
        }
    }));
    let mut question = Reader::of(question);
    let words: Vec<OsString> = question.list(|block| OsString::from(block.text()));
    table::lay(question.list(|block| (block.text(), block.bytes().to_vec())));
    let mut told = Told::default();
    let status = program::run(&words, &mut told);
    let mut block = Writer::default();
    block.number(status as u32);
    block.bytes(&told.out);
    block.list(&told.lines, |block, line| block.bytes(line.as_bytes()));
    block.list(&table::take_written(), |block, (name, content)| {
        block.bytes(name.as_bytes());
        block.bytes(content);
    });
    block.done()
}
