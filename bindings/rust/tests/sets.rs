//! Sets of signals.

use mestecur::Set;

#[test]
fn signals_rise() {
    let set = Set::from([63, 0, 5]);
    assert_eq!(set, Set(1 << 63 | 1 | 1 << 5));
    assert_eq!(set.iter().collect::<Vec<u8>>(), [0, 5, 63]);
    assert_eq!(set.into_iter().collect::<Set>(), set);
    assert_eq!(Set(u64::MAX).iter().count(), 64);
    assert_eq!(Set::EMPTY.iter().next(), None);
}

#[test]
fn membership_and_print() {
    let set = Set::from([1, 2]);
    assert!(set.has(1) && set.has(2) && !set.has(0) && !set.has(64) && !set.has(255));
    assert_eq!(set.to_string(), "{1,2}");
    assert_eq!(Set::EMPTY.to_string(), "none");
}
