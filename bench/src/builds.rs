//! Two builds of the engine in one run, each loaded from a shared library, so that both are called alike.

use crate::{named, Timed};
use std::ffi::{c_char, c_int, c_void, CString};
use std::hint::black_box;

extern "C" {
    fn dlopen(path: *const c_char, flags: c_int) -> *mut c_void;
    fn dlsym(library: *mut c_void, name: *const c_char) -> *mut c_void;
}

/// Every symbol is bound when the library is loaded.
const RTLD_NOW: c_int = 2;

// What a call returns is not looked at: a build from before 0.2.0 returns nothing.
type Check = unsafe extern "C" fn(*const u8, usize, *mut usize, usize);
type Compose = unsafe extern "C" fn(*const u8, usize, *mut u8, usize, *mut u8, usize, *mut usize, usize);

struct Build {
    check: Check,
    compose: Compose,
    result: Vec<u8>,
    memory: Vec<u8>,
}

impl Build {
    fn load(path: &str) -> Build {
        let path = std::fs::canonicalize(path).expect("a shared library");
        let path = CString::new(path.as_os_str().as_encoded_bytes()).expect("a path");
        // SAFETY: the libraries are builds of the engine, whose exports have these types.
        unsafe {
            let library = dlopen(path.as_ptr(), RTLD_NOW);
            assert!(!library.is_null(), "{path:?} cannot be loaded");
            let found = |name: &str| {
                let name = CString::new(name).expect("a name");
                let found = dlsym(library, name.as_ptr());
                assert!(!found.is_null(), "{path:?} has no {name:?}");
                found
            };
            Build {
                check: std::mem::transmute::<*mut c_void, Check>(found("snowdell_check")),
                compose: std::mem::transmute::<*mut c_void, Compose>(found("snowdell_compose")),
                result: vec![0; snowdell::RESULT],
                memory: vec![0; snowdell::MEMORY],
            }
        }
    }

    fn check(&self, file: &[u8]) -> [usize; 6] {
        let mut numbers = [0; 6];
        // SAFETY: each pointer comes with the length of the slice that it points to.
        unsafe { (self.check)(file.as_ptr(), file.len(), numbers.as_mut_ptr(), numbers.len()) };
        numbers
    }

    fn compose(&mut self, file: &[u8]) -> [usize; 7] {
        let mut numbers = [0; 7];
        let (result, memory) = (&mut self.result, &mut self.memory);
        // SAFETY: each pointer comes with the length of the slice that it points to; the slices do not overlap.
        unsafe {
            (self.compose)(
                file.as_ptr(),
                file.len(),
                result.as_mut_ptr(),
                result.len(),
                memory.as_mut_ptr(),
                memory.len(),
                numbers.as_mut_ptr(),
                numbers.len(),
            )
        };
        numbers
    }
}

/// The numbers of Check begin with 0.
fn is_accepted(checked: [usize; 6]) -> bool {
    checked[0] == 0
}

fn row(name: &str, call: &str, before: &Timed, after: &Timed) {
    let ratio = after.micros() / before.micros();
    println!("| {name} | {call} | {:.1} | {:.1} | {ratio:.2} |", before.micros(), after.micros());
}

/// Check and Compose of both builds on every file, by turns. A file that only one of them accepts, as it has a form that the other
/// does not know, is left out and named.
pub fn compare(words: &[String], turns: u32) {
    let (mut before, mut after) = (Build::load(&words[0]), Build::load(&words[1]));
    println!("Times in microseconds, the least of {turns} turns; ratio = after / before.\n");
    println!("| file | call | before | after | ratio |");
    println!("|---|---|---|---|---|");
    let mut left_out = Vec::new();
    for (name, file) in named(&words[2..]) {
        let (said_before, said_after) = (before.check(&file), after.check(&file));
        if is_accepted(said_before) != is_accepted(said_after) {
            left_out.push(name);
            continue;
        }
        assert_eq!(said_before, said_after, "{name}");
        assert_eq!(before.compose(&file), after.compose(&file), "{name}");
        assert_eq!(before.result, after.result, "{name}");
        let mut times = [Timed::new(), Timed::new(), Timed::new(), Timed::new()];
        for _ in 0..turns {
            times[0].turn(|| {
                black_box(before.check(black_box(&file)));
            });
            times[1].turn(|| {
                black_box(after.check(black_box(&file)));
            });
            times[2].turn(|| {
                black_box(before.compose(black_box(&file)));
            });
            times[3].turn(|| {
                black_box(after.compose(black_box(&file)));
            });
        }
        row(&name, "Check", &times[0], &times[1]);
        row(&name, "Compose", &times[2], &times[3]);
    }
    if !left_out.is_empty() {
        println!("\nLeft out, as only one of the two accepts them: {}.", left_out.join("; "));
    }
}
