//! A thread of [`STACK_BYTES`] has stack enough for the calls on the deepest sheets. Too little would end the program.

#[path = "common/deep.rs"]
mod deep;

use nannyjiffy::{Flow, Rest, Role, STACK_BYTES};
use reference::sheet;
use std::thread;

#[test]
fn the_deepest_sheets_run() {
    for (name, rows, action) in deep::deepest() {
        let run = move || {
            let flow = Flow::load(&sheet::write(&rows)).expect("accepted");
            let mut rest = Rest::start(&flow);
            rest.look(Role::FIRST);
            rest.handle(&deep::event(action))
        };
        let thread = thread::Builder::new().stack_size(STACK_BYTES).spawn(run).expect("a thread");
        assert_eq!(thread.join().expect("no panic"), Ok(()), "{name}");
    }
}
