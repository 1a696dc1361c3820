//! How deep the stack gets while some work is done: it is painted before and looked at after.

use std::hint::black_box;
use std::thread;

const STACK: usize = 4 << 20;
const PAINTED: usize = 1 << 20;
/// What lies nearest is left alone: it belongs to the painter. No depth below this can be told.
const GAP: usize = 4 << 10;
const PAINT: u64 = 0xa5c3_5a3c_96e1_69d2;

/// The octets between the caller of the work and the deepest octet that it changed.
pub fn depth(work: impl FnOnce() + Send) -> usize {
    thread::scope(|scope| {
        let painter = thread::Builder::new().stack_size(STACK);
        let painted = painter.spawn_scoped(scope, || painted(work)).expect("a thread to paint the stack of");
        painted.join().expect("the work ends")
    })
}

#[inline(never)]
fn painted(work: impl FnOnce()) -> usize {
    let here = 0u64;
    let top = &raw const here as usize & !7;
    let (low, high) = (top - PAINTED, top - GAP);
    // The thread has this stack below `here` and runs nothing else, so nothing that is in use is painted.
    for place in (low..high).step_by(8) {
        unsafe { (place as *mut u64).write_volatile(PAINT) };
    }
    apart(work);
    let deepest = (low..high).step_by(8).find(|&place| unsafe { (place as *const u64).read_volatile() } != PAINT);
    deepest.map_or(GAP, |place| top - place)
}

/// Does the work in a frame of its own, below the painter's.
#[inline(never)]
fn apart(work: impl FnOnce()) {
    work();
    black_box(());
}

#[cfg(test)]
mod tests {
    use super::*;

    #[test]
    fn an_array_on_the_stack_is_seen() {
        const OCTETS: usize = 200_000;
        let deep = depth(|| {
            black_box(&mut [1u8; OCTETS]);
        });
        assert!((OCTETS..OCTETS + 2 * GAP).contains(&deep), "{deep}");
    }
}
