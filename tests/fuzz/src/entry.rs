//! What libFuzzer calls with each input; the environment names the target.

use crate::{judge, target, Target};
use std::sync::OnceLock;

static TARGET: OnceLock<&Target> = OnceLock::new();

/// # Safety
/// `data` points to `size` bytes that can be read.
#[no_mangle]
#[allow(non_snake_case)]
pub unsafe extern "C" fn LLVMFuzzerTestOneInput(data: *const u8, size: usize) -> i32 {
    judge(
        TARGET.get_or_init(asked_for),
        std::slice::from_raw_parts(data, size),
    );
    0
}

fn asked_for() -> &'static Target {
    let name = std::env::var("FUZZ_TARGET").expect("FUZZ_TARGET names the target");
    target(&name).unwrap_or_else(|| panic!("there is no target {name}"))
}
