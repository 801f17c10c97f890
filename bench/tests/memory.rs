//! How the stack of a call is measured, and that no call takes much.

use bench::family;
use bench::memory::stack_of;
use mestecur::Set;
use std::hint::black_box;

/// A call that has an array takes about as much as the array.
#[test]
fn an_array_is_found_on_the_stack() {
    let stack = stack_of(|| {
        black_box([1_u8; 10_000]);
    });
    assert!((9_500..10_500).contains(&stack), "{stack}");
}

/// A step stays below 64 KiB, in the deepest tree too.
#[test]
fn a_step_takes_less_than_64_kib() {
    for subject in [family::chain(), family::hard().swap_remove(0)] {
        let mut next = [0; 16];
        let stack = stack_of(|| {
            let (file, config) = (&subject.file, &subject.config);
            let stepped = mestecur::step(file, config, Set(subject.input), &mut next);
            assert!(stepped.is_ok());
        });
        assert!((10_000..65_536).contains(&stack), "{stack}");
    }
}
