//! The stack that a call takes: a thread's stack is painted, the call made on it, and what is left of the paint found.

use std::ffi::{c_int, c_void};
use std::ptr::{null, null_mut};

use crate::groups::refinements::{burst, call};
use crate::probes::records::{refine, refine_channel};
use crate::records;
use crate::report::Tally;
use crate::rng::Rng;

const WORDS: usize = 1 << 17;
const PAINT: u64 = 0x5AFE_57AC_0FF5_E751;
/// The nine layouts with four constellations, two patterns, and spreading or not.
const SHAPES: usize = 144;
const RECORDS: u64 = 600;

/// `pthread_attr_t` of glibc on x86-64, and more room.
#[repr(C, align(16))]
struct Attr([u8; 128]);

type Start = extern "C" fn(*mut c_void) -> *mut c_void;

unsafe extern "C" {
    fn pthread_attr_init(attr: *mut Attr) -> c_int;
    fn pthread_attr_setstack(attr: *mut Attr, stack: *mut c_void, size: usize) -> c_int;
    fn pthread_create(thread: *mut usize, attr: *const Attr, start: Start, job: *mut c_void) -> c_int;
    fn pthread_join(thread: usize, result: *mut *mut c_void) -> c_int;
}

/// A call, and an address of the frame that makes it.
struct Job<'a> {
    call: &'a mut dyn FnMut(),
    top: usize,
}

extern "C" fn start(job: *mut c_void) -> *mut c_void {
    // SAFETY: `taken` hands in its job and reads it after the thread has ended.
    let job = unsafe { &mut *job.cast::<Job>() };
    let here = 0u8;
    job.top = &raw const here as usize;
    (job.call)();
    null_mut()
}

/// Bytes below the frame that makes the call.
fn taken(stack: &mut [u64], call: &mut dyn FnMut()) -> usize {
    stack.fill(PAINT);
    let mut job = Job { call, top: 0 };
    let (mut attr, mut thread) = (Attr([0; 128]), 0);
    let low = stack.as_mut_ptr();
    // SAFETY: the stack and the job live until the thread is joined, and nothing else uses them meanwhile.
    unsafe {
        assert_eq!(pthread_attr_init(&mut attr), 0);
        assert_eq!(pthread_attr_setstack(&mut attr, low.cast(), size_of_val(stack)), 0);
        assert_eq!(pthread_create(&mut thread, &attr, start, (&raw mut job).cast()), 0);
        assert_eq!(pthread_join(thread, null::<*mut c_void>().cast_mut()), 0);
    }
    let left = stack.iter().take_while(|&&word| word == PAINT).count();
    assert!(left > 0, "the stack is too small");
    job.top - (low as usize + 8 * left)
}

/// An entry, and the bytes that a call of it may take.
const ENTRIES: [(&str, usize); 5] = [
    ("single estimate", 160 << 10),
    ("channel_power", 16 << 10),
    ("refine", 64 << 10),
    ("refine_record", 184_000),
    ("refine_record_channel", 184_000),
];

/// The most of each entry: bursts of every shape, of each number of symbols; then records.
fn most(symbols: &[u16]) -> [usize; 5] {
    let mut stack = vec![0; WORDS];
    let mut rng = Rng::new(7);
    let mut most = [0; 5];
    let mut note = |i: usize, call: &mut dyn FnMut()| most[i] = taken(&mut stack, call).max(most[i]);
    for shape in 0..SHAPES {
        for &nsym in symbols {
            let b = burst(&mut rng, shape, nsym, false);
            let mut c = call(&mut rng, &b, 0);
            let (carrier, symbol) = (b.shape().nc / 2, b.symbols() / 2);
            note(0, &mut || assert_eq!(c.single_estimate(carrier, symbol).number, 0));
            note(1, &mut || assert_eq!(c.channel_power().number, 0));
            note(2, &mut || assert_eq!(c.refine().number, 0));
        }
    }
    for i in 0..RECORDS {
        let (bytes, mut out, mut cells) = records::seeded(i);
        note(3, &mut || _ = refine(&bytes, &mut out));
        note(4, &mut || _ = refine_channel(&bytes, &mut out, &mut cells));
    }
    most
}

/// Bursts that are short, as long as the window, and longer.
pub fn print() {
    println!("{:<24} {:>8}", "stack of a call, at most", "bytes");
    for ((name, _), bytes) in ENTRIES.into_iter().zip(most(&[1, 26, 61])) {
        println!("{name:<24} {bytes:>8}");
    }
}

/// No entry takes more than it may.
pub fn compare() -> Tally {
    let mut t = Tally::new("stack");
    for ((name, limit), bytes) in ENTRIES.into_iter().zip(most(&[2, 26])) {
        t.same(name, &[bytes as u64], bytes <= limit, true);
    }
    t
}
