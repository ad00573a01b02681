//! How deep each exported call goes into the stack.
//!
//! A call runs on a thread whose stack is memory of ours, filled with a known byte. Its
//! number is how many bytes lie from the caller's stack pointer at the call down to the
//! lowest byte that the call wrote to, its return address among them. Arguments that the
//! caller puts on the stack are the caller's, and do not count. It is x86-64 code that is
//! measured, since the archives hold no other.

use std::arch::asm;
use std::cell::Cell;
use std::ffi::c_void;
use std::hint::black_box;
use std::mem::MaybeUninit;
use std::ptr::null_mut;

use desk::calls::CALLS;

use super::{FULL, Size, taken};

mod inputs;

/// The largest planes that there are (docs/RULES.md, "Planes").
const LARGEST: Size = Size::new(8192, 4352);

/// Where a thread is, in its stack and in its code.
#[derive(Clone, Copy, Default)]
struct Place {
    stack: usize,
    code: usize,
}

impl Place {
    #[inline(always)]
    fn here() -> Self {
        let (stack, code);
        // SAFETY: two registers are read.
        unsafe { asm!("mov {}, rsp", "lea {}, [rip]", out(reg) stack, out(reg) code) };
        Self { stack, code }
    }
}

/// What is noted of a call, outside the stack that is measured.
#[derive(Default)]
struct Notes {
    before: Cell<Place>,
    behind: Cell<Place>,
    number: Cell<u8>,
}

/// Does the work on a thread that has this memory as its stack.
fn on_stack<Work: FnMut()>(memory: &mut [u128], mut work: Work) {
    /// As long as the C library's, or longer.
    type Attributes = [u64; 16];
    unsafe extern "C" {
        fn pthread_attr_init(attributes: *mut Attributes) -> i32;
        fn pthread_attr_setstack(attributes: *mut Attributes, low: *mut u128, size: usize) -> i32;
        fn pthread_create(
            thread: *mut u64,
            attributes: *const Attributes,
            start: extern "C" fn(*mut c_void) -> *mut c_void,
            given: *mut c_void,
        ) -> i32;
        fn pthread_join(thread: u64, given: *mut *mut c_void) -> i32;
    }

    extern "C" fn start<Work: FnMut()>(given: *mut c_void) -> *mut c_void {
        // SAFETY: it is the work below, which is left alone until this thread has ended.
        lower(unsafe { &mut *given.cast::<Work>() });
        null_mut()
    }

    /// What a thread touches when it starts and when it ends lies above.
    #[inline(never)]
    fn lower(work: &mut impl FnMut()) {
        let mut room = MaybeUninit::<[u8; 64 * 1024]>::uninit();
        black_box(&mut room);
        work();
        black_box(&mut room);
    }

    let (mut attributes, mut thread) = ([0; 16], 0);
    let (low, size) = (memory.as_mut_ptr(), size_of_val(memory));
    let given = (&raw mut work).cast();
    let done = |number| assert_eq!(number, 0, "a thread with a stack of {size} bytes");
    // SAFETY: memory and work are ours, and left alone until the thread has ended. No guard
    // lies below the memory: a call that took more than 2 MB would write beyond it. None takes
    // a fortieth of that, and `depth` fails where less than a quarter is left.
    unsafe {
        done(pthread_attr_init(&mut attributes));
        done(pthread_attr_setstack(&mut attributes, low, size));
        done(pthread_create(
            &mut thread,
            &attributes,
            start::<Work>,
            given,
        ));
        done(pthread_join(thread, null_mut()));
    }
}

/// How deep a call went into this memory, whose words are as long as a stack's alignment.
fn depth(memory: &[u128], untouched: u128, notes: &Notes) -> usize {
    let (before, behind) = (notes.before.get(), notes.behind.get());
    let word = size_of::<u128>();
    // The caller may push arguments after it noted its pointer. The return address lies right
    // below them, in the upper half of a word, and is known by its value: code behind the first
    // place, up to the second. The first place itself is left out, since a register that the
    // call saves may hold it.
    let noted = (before.stack - memory.as_ptr().addr()) / word;
    let call = before.code + 1..=behind.code;
    let returns = |word: &u128| call.contains(&((word >> 64) as usize));
    let address = memory[..noted].iter().position(returns);
    let top = 1 + address.expect("a call leaves its return address");
    let lowest = memory.iter().position(|word| *word != untouched);
    let lowest = lowest.expect("a thread writes to its stack");
    let (left, all) = (lowest * word, size_of_val(memory));
    assert!(
        left >= all / 4,
        "{left} of {all} bytes are left; expected a quarter or more"
    );
    let within = (memory[lowest] ^ untouched).trailing_zeros() as usize / 8;
    top * word - (left + within)
}

/// The deepest of the calls that it makes.
#[derive(Default)]
struct Gauge {
    deepest: usize,
}

impl Gauge {
    /// Makes a call that writes to a copy of what is lent. It does so twice, since the call
    /// may itself write the known byte.
    fn call<Lent: Clone>(&mut self, lent: Lent, call: impl Fn(&Notes, &mut Lent)) {
        for known in [0xA5, 0x5A] {
            let (notes, mut lent) = (Notes::default(), lent.clone());
            let untouched = u128::from_le_bytes([known; 16]);
            // 2 MB.
            let mut memory = vec![untouched; 128 * 1024];
            on_stack(&mut memory, || call(&notes, &mut lent));
            taken(notes.number.get());
            self.deepest = self.deepest.max(depth(&memory, untouched, &notes));
        }
    }
}

/// Of the first so many inputs.
fn deepest(call: &str, size: Size, count: usize) -> usize {
    let mut gauge = Gauge::default();
    for input in inputs::first(count) {
        inputs::measure(&mut gauge, call, size, input);
    }
    gauge.deepest
}

/// These calls, or all where none is named.
pub fn print(named: &[String]) {
    println!("{:<22} {FULL} {LARGEST}", "call");
    for call in CALLS.map(|call| call.name) {
        if !named.is_empty() && named.iter().all(|name| name != call) {
            continue;
        }
        eprintln!("{call} at {FULL}");
        let full = deepest(call, FULL, 12);
        // Fewer, since it takes minutes.
        eprintln!("{call} at {LARGEST}");
        let largest = deepest(call, LARGEST, 4);
        println!(
            "{call:<22} {:>9} {:>9}",
            with_commas(full),
            with_commas(largest)
        );
    }
}

fn with_commas(number: usize) -> String {
    match number {
        0..1000 => number.to_string(),
        _ => format!("{},{:03}", with_commas(number / 1000), number % 1000),
    }
}

#[cfg(test)]
mod tests {
    use super::{CALLS, FULL, deepest};

    #[test]
    fn every_call_is_measured() {
        for call in CALLS.map(|call| call.name) {
            let deep = deepest(call, FULL, 1);
            assert!(
                deep >= size_of::<usize>(),
                "{call} at {FULL} takes {deep} bytes of stack; expected its return address, or more"
            );
        }
    }
}
