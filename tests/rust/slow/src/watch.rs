//! A thread that looks whether the call that is being made comes back.

use std::sync::{Arc, Mutex};
use std::thread;
use std::time::{Duration, Instant};

use plain::case::Case;

use crate::report::show_case;

/// How many times its limit a call may take before it is given up.
const FAR: u32 = 10;
/// How often the thread looks.
const PAUSE: Duration = Duration::from_millis(100);

struct Begun {
    case: Arc<Case>,
    end: Instant,
}

/// The call that is being made.
pub struct Watch(Arc<Mutex<Option<Begun>>>);

impl Watch {
    pub fn start() -> Self {
        let begun: Arc<Mutex<Option<Begun>>> = Arc::default();
        let watched = Arc::clone(&begun);
        thread::spawn(move || loop {
            thread::sleep(PAUSE);
            if let Some(Begun { case, end }) = &*watched.lock().expect("the calls go on") {
                if Instant::now() > *end {
                    show_case("NO ANSWER", case);
                    std::process::exit(1);
                }
            }
        });
        Watch(begun)
    }

    pub fn begin(&self, case: &Arc<Case>, limit: Duration) {
        let begun = Begun { case: Arc::clone(case), end: Instant::now() + FAR * limit };
        *self.0.lock().expect("the watch goes on") = Some(begun);
    }

    pub fn end(&self) {
        *self.0.lock().expect("the watch goes on") = None;
    }
}
