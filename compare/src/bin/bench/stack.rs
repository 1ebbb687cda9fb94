//! How deep a call goes: the stack below it is painted before, and what is painted still is counted after.

use super::{empty, Request};
use oracle::limits;
use std::arch::asm;
use std::hint::black_box;
use std::ptr;
use std::thread;

/// The bytes painted, and those next to the stack pointer that are left alone: what the compiler itself may keep there.
const PAINTED: usize = 512 * 1_024;
const SPARED: usize = 256;
const PAINT: u8 = 0xa5;

/// The bytes of stack that a call takes, beside what its caller has.
#[inline(never)]
fn depth(call: &mut dyn FnMut()) -> usize {
    let pointer: usize;
    // SAFETY: this only reads the stack pointer.
    unsafe {
        #[cfg(target_arch = "x86_64")]
        asm!("mov {}, rsp", out(reg) pointer);
        #[cfg(target_arch = "aarch64")]
        asm!("mov {}, sp", out(reg) pointer);
    }
    let lowest = ptr::with_exposed_provenance_mut::<u8>(pointer - PAINTED);
    // SAFETY: the thread has twice as much stack; nothing lives below the spared bytes while the paint is put there and read.
    unsafe { ptr::write_bytes(lowest, PAINT, PAINTED - SPARED) };
    call();
    // SAFETY: as above; this only reads.
    let is_painted = |at: &usize| unsafe { lowest.add(*at).read_volatile() } == PAINT;
    PAINTED - (0..PAINTED - SPARED).take_while(is_painted).count()
}

fn deepest(call: &mut (dyn FnMut() + Send)) -> usize {
    thread::scope(|scope| {
        let builder = thread::Builder::new().stack_size(2 * PAINTED);
        let run = || depth(&mut *call);
        builder.spawn_scoped(scope, run).expect("a thread").join().expect("a depth")
    })
}

fn line(name: &str, ours: &mut (dyn FnMut() + Send), theirs: &mut (dyn FnMut() + Send)) {
    println!("{name:52} {:>18} bytes {:>18} bytes", deepest(ours), deepest(theirs));
}

/// The stack of each call, the oracle's heap left out.
pub fn report(text: &Request, granted: &Request) {
    println!("\n{:52} {:>24} {:>24}", "stack below the call", "library", "oracle");
    let (mut forms, mut clauses, mut steps) = empty();
    let (mut forms2, mut clauses2, mut steps2) = empty();
    line("read", &mut || _ = black_box(peraduksi::read(&text.file, &mut forms, &mut clauses, &mut steps)), &mut || {
        _ = black_box(oracle::read(&text.file, &mut forms2, &mut clauses2, &mut steps2))
    });
    let (mut one, mut other) = (vec![0; limits::FILE], vec![0; limits::FILE]);
    let (tables, counts) = (text.tables(), text.narrow());
    line(
        "write",
        &mut || _ = black_box(peraduksi::write(counts, tables.forms, tables.clauses, tables.steps, &mut one)),
        &mut || _ = black_box(oracle::write(&text.counts, &tables, &mut other)),
    );
    let (tables, counts) = (granted.tables(), granted.narrow());
    line(
        "judge",
        &mut || _ = black_box(peraduksi::judge(counts, tables.forms, tables.clauses, tables.steps)),
        &mut || _ = black_box(oracle::judge(&granted.counts, &tables)),
    );
    line("gate", &mut || _ = black_box(peraduksi::gate(&granted.file)), &mut || {
        _ = black_box(oracle::gate(&granted.file))
    });
}
