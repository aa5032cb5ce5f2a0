//! A program without std over the crate. Were std within it, there would be two panic handlers, and no program.
//! Ends with 0 where the cube with corners 0 and 2 at 2, and the others at -1, is 3_2.
#![no_std]
#![no_main]

use mc33::{choose, Choice, Cube};

#[link(name = "c")]
extern "C" {}

#[panic_handler]
fn panic(_: &core::panic::PanicInfo) -> ! {
    loop {}
}

// The compiled core names it; nothing unwinds here.
#[no_mangle]
extern "C" fn rust_eh_personality() {}

#[no_mangle]
extern "C" fn main() -> i32 {
    let cube = Cube::from([2.0, -1.0, 2.0, -1.0, -1.0, -1.0, -1.0, -1.0]);
    let found = matches!(choose(3, 0, cube), Ok(Choice::Tiled(tiling)) if tiling.name() == "3_2");
    i32::from(!found)
}
