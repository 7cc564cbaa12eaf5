//! A stack in Rust: as the one in C of docs/OBJECTS_IN_C.md, with the same operations and replies.
//!
//! It is compiled for bpfel-unknown-none, a target whose `core` has to be made first, of the compiler's own source (`rustup component add rust-src`);
//! `tools/tests/rust_object.py` does that, and says each command. Then, as any object file for BPF:
//!
//!     tools/tests/rust_object.py examples/programs/stack.rs stack.o && tools/program stack.o -o stack.h
//!
//! All functions stand in .text, and none may panic: what is not there is asked for by `get`, and sums wrap.
#![no_std]

const PUSH: u64 = 1 << 1;
const POP: u64 = 2 << 1;
const DEPTH: u64 = 3 << 1 | 1;
const PUSHED: u64 = 1;
const POPPED: u64 = 2;
const EMPTY: u64 = 3;
const FULL: u64 = 4;
const NUMBER: u64 = 5;
const UNKNOWN: u64 = 6;

#[repr(C)]
pub struct Stack {
    depth: u64,
    item: [u64; 500],
}

impl Stack {
    #[inline(always)]
    fn push(&mut self, item: u64) -> Option<()> {
        *self.item.get_mut(self.depth as usize)? = item;
        self.depth = self.depth.wrapping_add(1);
        Some(())
    }

    #[inline(always)]
    fn pop(&mut self) -> Option<u64> {
        let depth = self.depth.wrapping_sub(1);
        let item = *self.item.get(depth as usize)?;
        self.depth = depth;
        Some(item)
    }
}

/// One operation. The library calls it with the addresses of a request, a reply and the state.
#[no_mangle]
#[link_section = ".text"]
pub extern "C" fn githoppu_run(request: &[u64; 144], reply: &mut [u64; 136], stack: &mut Stack, _size: u64) -> u64 {
    match request[0] {
        PUSH => stack.push(request[1]).map_or(FULL, |()| PUSHED),
        POP => match stack.pop() {
            Some(item) => {
                reply[0] = item;
                POPPED
            }
            None => EMPTY,
        },
        DEPTH => {
            reply[0] = stack.depth;
            NUMBER
        }
        _ => UNKNOWN,
    }
}

#[panic_handler]
#[link_section = ".text"]
fn panicked(_: &core::panic::PanicInfo) -> ! {
    loop {}
}
