//! How much stack a call takes: it is made by a thread whose stack was filled with a pattern before, and what
//! the call wrote over is counted.

use crate::compare::Part;
use crate::family::{self, Subject};
use crate::table::{Row, Table, NOTHING};
use mestecur::Set;
use reference::limits::TEXT_ROOM;
use std::ffi::{c_int, c_void};
use std::hint::black_box;
use std::ptr::null_mut;

/// The bytes of a thread's stack, and what it is filled with.
const STACK: usize = 1 << 20;
const PATTERN: u8 = 0xa5;

/// A pthread_attr_t: it has 56 bytes on x86-64 and 64 on Arm.
#[repr(C, align(16))]
struct Attributes([u8; 64]);

/// What a thread begins with.
type Start = extern "C" fn(*mut c_void) -> *mut c_void;

extern "C" {
    fn pthread_attr_init(attributes: *mut Attributes) -> c_int;
    fn pthread_attr_setstack(attributes: *mut Attributes, stack: *mut c_void, size: usize)
        -> c_int;
    fn pthread_create(
        thread: *mut usize,
        attributes: *const Attributes,
        start: Start,
        argument: *mut c_void,
    ) -> c_int;
    fn pthread_join(thread: usize, result: *mut *mut c_void) -> c_int;
}

/// A stack, as aligned as a page.
#[repr(align(4096))]
struct Stack([u8; STACK]);

/// Makes the call that the argument points to.
extern "C" fn make(argument: *mut c_void) -> *mut c_void {
    // SAFETY: `used` passes a pointer to a call, which lives until the thread has ended.
    let call = unsafe { &mut *argument.cast::<&mut dyn FnMut()>() };
    call();
    null_mut()
}

/// The bytes of a stack that a thread with this call writes over.
fn used(mut call: &mut dyn FnMut()) -> usize {
    let mut stack = vec![Stack([PATTERN; STACK])];
    let (mut attributes, mut thread) = (Attributes([0; 64]), 0);
    let bottom: *mut Stack = stack.as_mut_ptr();
    // SAFETY: the stack, the attributes and the call live until the thread is joined, and nobody else uses them.
    unsafe {
        assert_eq!(pthread_attr_init(&mut attributes), 0);
        let lent = pthread_attr_setstack(&mut attributes, bottom.cast(), STACK);
        assert_eq!(lent, 0);
        let argument = (&raw mut call).cast();
        let created = pthread_create(&mut thread, &attributes, make, argument);
        assert_eq!(created, 0);
        assert_eq!(pthread_join(thread, null_mut()), 0);
    }
    let untouched = stack[0].0.iter().take_while(|&&byte| byte == PATTERN);
    STACK - untouched.count()
}

/// The stack of a call in bytes: what a thread takes with it, less what it takes without.
pub fn stack_of(mut call: impl FnMut()) -> usize {
    used(&mut call) - used(&mut || {})
}

/// A call that is measured, by its name; it says whether it was given or refused.
type Asked<'a> = (&'static str, Box<dyn FnMut() -> bool + 'a>);

/// All of them, their buffers ready; a file's text is read too.
fn calls<'a>(subject: &'a Subject, text: &'a [u8]) -> [Asked<'a>; 6] {
    let (file, config) = (&subject.file[..], &subject.config[..]);
    let input = Set(subject.input);
    let stepped = move |next: &mut [u8]| mestecur::step(file, config, input, next).is_ok();
    [
        ("step", filling(stepped)),
        ("read", filling(|room| mestecur::read(text, room).is_ok())),
        ("write", filling(|room| mestecur::write(file, room).is_ok())),
        (
            "rewrite",
            filling(|room| mestecur::rewrite(file, room).is_ok()),
        ),
        ("clear", filling(|room| mestecur::clear(file, room).is_ok())),
        (
            "check",
            Box::new(|| black_box(mestecur::check(file)).is_ok()),
        ),
    ]
}

/// A call with a buffer.
fn filling<'a>(call: impl Fn(&mut [u8]) -> bool + 'a) -> Box<dyn FnMut() -> bool + 'a> {
    let mut room = vec![0; TEXT_ROOM];
    Box::new(move || black_box(call(black_box(&mut room))))
}

/// A row for each call, a column for each file; nothing where a call is refused.
pub fn memory() -> Part {
    let [_, (_, sixteen), _] = family::worst(2);
    let subjects = [
        ("4 charts", family::everyday().swap_remove(3)),
        ("8 charts", family::hard().swap_remove(0)),
        ("16 charts", sixteen),
        ("a chain of 64 nodes", family::chain()),
    ];
    let columns = subjects.each_ref().map(|(label, _)| *label);
    let stacks = subjects.each_ref().map(|(_, subject)| {
        let mut text = vec![0; TEXT_ROOM];
        let length = reference::write(&subject.file, &mut text).length;
        calls(subject, &text[..length]).map(|(name, call)| (name, cell(call)))
    });
    let row = |place: usize| Row {
        label: stacks[0][place].0.to_string(),
        cells: stacks.iter().map(|file| file[place].1.clone()).collect(),
    };
    let rows = (0..stacks[0].len()).map(row).collect();
    Part::plain("memory", Table::new("stack of a call, KiB", &columns, rows))
}

/// What a call that is given takes, in KiB.
fn cell(mut call: Box<dyn FnMut() -> bool + '_>) -> String {
    let mut given = false;
    let stack = stack_of(|| given = call());
    match given {
        true => format!("{:.1}", stack as f64 / 1024.0),
        false => NOTHING.to_string(),
    }
}
