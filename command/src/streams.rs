//! Which standard streams were closed when the program was started. The runtime opens closed ones as empty files before `main`, and a
//! closed input would then look like an empty sheet; so they are looked at before that.
#![allow(unsafe_code)]
use std::ffi::{c_char, c_int};
use std::sync::atomic::{AtomicBool, Ordering};

static INPUT_CLOSED: AtomicBool = AtomicBool::new(false);
static OUTPUT_CLOSED: AtomicBool = AtomicBool::new(false);

/// `F_GETFD` of `fcntl`, which fails for a closed stream and changes nothing.
const GET_FLAGS: c_int = 1;

/// `O_RDONLY` of `open`.
const READ_ONLY: c_int = 0;

extern "C" {
    fn fcntl(stream: c_int, command: c_int, ...) -> c_int;
    fn open(path: *const c_char, flags: c_int, ...) -> c_int;
}

/// The system runs what stands in this section before the runtime starts.
#[used]
#[link_section = ".init_array"]
static LOOK: extern "C" fn() = look;

extern "C" fn look() {
    look_at(0, &INPUT_CLOSED);
    look_at(1, &OUTPUT_CLOSED);
}

/// Notes a closed stream and puts a folder there, of which nothing can be read and to which nothing can be written: under a name such as
/// `/dev/stdin` it would else be an empty file too.
fn look_at(stream: c_int, closed: &AtomicBool) {
    // SAFETY: F_GETFD takes no further argument and only answers
    let is_closed = unsafe { fcntl(stream, GET_FLAGS) } == -1;
    closed.store(is_closed, Ordering::Relaxed);
    if is_closed {
        // SAFETY: the path is a C string; the lowest free number is this stream's, since those below it are open
        unsafe { open(c"/".as_ptr(), READ_ONLY) };
    }
}

pub fn input_was_closed() -> bool {
    INPUT_CLOSED.load(Ordering::Relaxed)
}

pub fn output_was_closed() -> bool {
    OUTPUT_CLOSED.load(Ordering::Relaxed)
}
