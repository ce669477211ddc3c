//! The stack that each call takes, in bytes, on the deepest sheets and on those of a seed. Each call runs on a stack that
//! was painted before; what it changed is what it took. Prints a table in Markdown, for `tools/measure`.

#[path = "../tests/common/deep.rs"]
mod deep;

use nannyjiffy::{calls, list_bytes, LINE_BYTES, ROW_WORDS, STATE_WORDS, VALUE_WORDS};
use reference::calls::words_of_rows;
use reference::generate;
use reference::random::Random;
use reference::sheet::{self, Row};
use std::arch::asm;

const STACK: usize = 4 << 20;
const PAINT: u64 = 0xa5a5_a5a5_a5a5_a5a5;
const SEED: u64 = 1;
const SHEETS: u64 = 2000;

struct Stack(Vec<u64>);

impl Stack {
    fn new() -> Self {
        Stack(vec![PAINT; STACK / 8])
    }

    /// Runs the call on the painted stack, and gives the bytes that it changed.
    fn depth(&mut self, mut call: impl FnMut()) -> usize {
        extern "C" fn run<F: FnMut()>(call: *mut F) {
            // SAFETY: `depth` hands over its closure.
            unsafe { (*call)() }
        }
        fn entry<F: FnMut()>(_: &F) -> extern "C" fn(*mut F) {
            run::<F>
        }
        let run = entry(&call);
        let top = self.0.as_mut_ptr_range().end;
        // SAFETY: the stack is large enough for the call, and aligned; r12 keeps the old one over the call.
        unsafe {
            asm!(
                "mov r12, rsp",
                "mov rsp, {top}",
                "and rsp, -16",
                "call {run}",
                "mov rsp, r12",
                top = in(reg) top,
                run = in(reg) run,
                in("rdi") &mut call as *mut _,
                out("r12") _,
                clobber_abi("C"),
            );
        }
        let kept = self.0.iter().take_while(|&&word| word == PAINT).count();
        self.0[kept..].fill(PAINT);
        STACK - 8 * kept
    }
}

/// The stack of load, start, look and handle.
fn depths(stack: &mut Stack, rows: &[Row], event: &[u8]) -> [usize; 4] {
    let text = sheet::write(rows);
    let mut words = vec![0; text.len() / LINE_BYTES * ROW_WORDS];
    let mut state = vec![0; rows.len() * STATE_WORDS];
    let (mut value, mut list) = ([0; VALUE_WORDS], vec![0; list_bytes(rows.len())]);
    let load = stack.depth(|| calls::load(&text, &mut words).expect("accepted"));
    assert_eq!(words, words_of_rows(rows));
    let start = stack.depth(|| _ = calls::start(&words, &mut state).expect("accepted"));
    let look = stack.depth(|| _ = calls::look(&words, &state, 1, &mut value, &mut list).expect("a rest"));
    let handle = stack.depth(|| _ = calls::handle(&words, &mut state, event));
    [load, start, look, handle]
}

fn main() {
    let stack = &mut Stack::new();
    println!("### Stack\n\n| Sheet and event | load, bytes | start | look | handle |\n|---|{}", "---:|".repeat(4));
    let mut print = |name: &str, rows: &[Row], action: u32| {
        let [load, start, look, handle] = depths(stack, rows, &deep::event(action));
        println!("| {name} | {load} | {start} | {look} | {handle} |");
    };
    print("two rows, value", &deep::editor(), 1);
    for (name, rows, action) in deep::deepest() {
        print(name, &rows, action);
    }
    let mut most = [0; 4];
    for at in 0..SHEETS {
        let random = &mut Random::of_case(SEED, at);
        let rows = generate::accepted(random);
        let taken = depths(stack, &rows, &deep::event(1 + random.below(4) as u32));
        most = [0, 1, 2, 3].map(|call| most[call].max(taken[call]));
    }
    let [load, start, look, handle] = most;
    println!("| most of {SHEETS} sheets, seed {SEED} | {load} | {start} | {look} | {handle} |");
}
