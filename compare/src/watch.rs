//! Watches the calls: shows progress, and names the call and its input where one breaks a fence or does not end.

use std::{
    cell::Cell,
    ffi::c_int,
    io::{self, Write},
    panic, process, ptr,
    sync::atomic::{AtomicBool, AtomicPtr, AtomicU64, AtomicUsize, Ordering::Relaxed},
    thread,
    time::{Duration, Instant},
};

use crate::{case::Case, report::Call};

const SIGBUS: c_int = 7;
const SIGSEGV: c_int = 11;

/// How long a call may take before it counts as one that does not end.
const PATIENCE: Duration = Duration::from_secs(60);

/// The call that a thread makes. Where there is no case, none is under way.
struct Post {
    begun: AtomicU64,
    call: AtomicUsize,
    case: AtomicPtr<Case<'static>>,
}

/// More than there are groups, each of which has a thread and so a post.
static POSTS: [Post; 16] = [const {
    Post {
        begun: AtomicU64::new(0),
        call: AtomicUsize::new(0),
        case: AtomicPtr::new(ptr::null_mut()),
    }
}; 16];

static DONE: AtomicBool = AtomicBool::new(false);

thread_local! {
    static POST: Cell<&'static Post> = const { Cell::new(&POSTS[0]) };
    static NOW: Cell<Case<'static>> = const { Cell::new(EMPTY) };
}

unsafe extern "C" {
    fn signal(number: c_int, handler: extern "C" fn(c_int)) -> usize;
}

/// Says which group this thread runs, by its number.
pub fn takes(group: u64) {
    POST.set(&POSTS[group as usize]);
}

/// Says what is called from now on. The case is read only while its call is under way, so it may go when the call ends.
pub fn begins(call: Call, case: Case<'_>) {
    let post = POST.get();

    NOW.with(|now| {
        now.set(unsafe { std::mem::transmute::<Case<'_>, Case<'static>>(case) });
        post.case.store(now.as_ptr(), Relaxed);
    });
    post.call.store(call as usize, Relaxed);
    post.begun.fetch_add(1, Relaxed);
}

/// Says that this thread calls no more.
pub fn rests() {
    POST.get().case.store(ptr::null_mut(), Relaxed);
}

const EMPTY: Case<'static> = Case {
    text: b"",
    tag: b"",
    second: b"",
    number: 0,
    numbers: [0; 4],
    cuts: &[],
    out: 0,
    bounds: crate::case::Given::Own,
    slack: crate::case::Slack::Full,
};

/// Prints a line every ten seconds, and ends the run where a call breaks a fence or does not end, or a thread panics, since the
/// others would wait for it.
pub fn start() {
    extern "C" fn broken(_: c_int) {
        ends(POST.get(), "reads or writes outside of what it was lent");
    }

    unsafe {
        signal(SIGSEGV, broken);
        signal(SIGBUS, broken);
    }

    panic::set_hook(Box::new(|what| {
        ends(POST.get(), &format!("panics, here or in the Rust: {what}"))
    }));

    thread::spawn(|| {
        let mut seen = [(0, Instant::now()); POSTS.len()];

        loop {
            thread::sleep(Duration::from_secs(10));

            for (post, (begun, since)) in POSTS.iter().zip(&mut seen) {
                let now = post.begun.load(Relaxed);

                if now != *begun || post.case.load(Relaxed).is_null() {
                    (*begun, *since) = (now, Instant::now());
                } else if since.elapsed() > PATIENCE {
                    ends(post, "does not end");
                }
            }

            // In one piece, so that it never stands within another line.
            let line = format!("compare: {} comparisons so far\n", begun());

            if DONE.load(Relaxed) || io::stderr().write_all(line.as_bytes()).is_err() {
                return;
            }
        }
    });
}

/// Shows no more progress.
pub fn stop() {
    DONE.store(true, Relaxed);
}

fn begun() -> u64 {
    POSTS.iter().map(|post| post.begun.load(Relaxed)).sum()
}

/// Ends the run with the call that a thread makes. It did not stop while printing, so that printing is safe.
fn ends(post: &Post, what: &str) -> ! {
    let call = Call::ALL[post.call.load(Relaxed)];
    println!("DIFFERENCE: {} {what}", call.name());

    if let Some(case) = unsafe { post.case.load(Relaxed).as_ref() } {
        print!("{case}");
    }

    println!("{} comparisons, 1 differences", begun());
    process::exit(1);
}
