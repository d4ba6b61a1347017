//! A line on standard error while a call takes long, where that is a terminal.

use std::io::{self, IsTerminal, Write};
use std::sync::mpsc::{channel, RecvTimeoutError, Sender};
use std::thread::{self, JoinHandle};
use std::time::{Duration, Instant};

/// How long a call may take before it is told, and between two lines.
const SECOND: Duration = Duration::from_secs(1);

/// Tells of a call from its second second until it is dropped.
pub struct Watch {
    thread: Option<(Sender<()>, JoinHandle<()>)>,
}

/// Watches a call while it is made.
pub fn watched<T>(call: &'static str, make: impl FnOnce() -> T) -> T {
    let _watch = watch(call);
    make()
}

/// Watches a call.
pub fn watch(call: &'static str) -> Watch {
    let thread = io::stderr().is_terminal().then(|| watching(call, SECOND, io::stderr()));
    Watch { thread }
}

/// Writes a line after each pause over the one before, and blanks it at the end.
fn watching(
    call: &'static str,
    pause: Duration,
    mut out: impl Write + Send + 'static,
) -> (Sender<()>, JoinHandle<()>) {
    let (sender, receiver) = channel();
    let thread = thread::spawn(move || {
        let (start, mut width) = (Instant::now(), 0);
        while receiver.recv_timeout(pause) == Err(RecvTimeoutError::Timeout) {
            let line = format!("raskjomi: {call}: {} s so far", start.elapsed().as_secs());
            width = line.len();
            let _ = write!(out, "\r{line}").and_then(|()| out.flush());
        }
        if width > 0 {
            let _ = write!(out, "\r{:width$}\r", "").and_then(|()| out.flush());
        }
    });
    (sender, thread)
}

impl Drop for Watch {
    fn drop(&mut self) {
        if let Some((sender, thread)) = self.thread.take() {
            drop(sender);
            let _ = thread.join();
        }
    }
}

#[cfg(test)]
mod tests {
    use super::*;
    use std::sync::{Arc, Mutex};

    #[derive(Clone, Default)]
    struct Page(Arc<Mutex<Vec<u8>>>);

    impl Page {
        fn content(&self) -> Vec<u8> {
            self.0.lock().expect("a page").clone()
        }
    }

    impl Write for Page {
        fn write(&mut self, bytes: &[u8]) -> io::Result<usize> {
            self.0.lock().expect("a page").extend(bytes);
            Ok(bytes.len())
        }

        fn flush(&mut self) -> io::Result<()> {
            Ok(())
        }
    }

    /// What is written of a call that lasts until the test says, with a line after each pause.
    fn told(pause: Duration, lasts: impl Fn(&Page) -> bool) -> String {
        let page = Page::default();
        let watch = Watch { thread: Some(watching("order", pause, page.clone())) };
        while lasts(&page) {
            thread::sleep(Duration::from_millis(1));
        }
        drop(watch);
        String::from_utf8(page.content()).expect("text")
    }

    #[test]
    fn a_long_call_is_told_and_the_line_goes() {
        let text = told(Duration::from_millis(2), |page| page.content().is_empty());
        let (line, _) = text[1..].split_once('\r').expect("a line that goes");
        let seconds =
            line.strip_prefix("raskjomi: order: ").and_then(|rest| rest.strip_suffix(" s so far"));
        assert!(seconds.is_some_and(|seconds| seconds.parse::<u64>().is_ok()), "{text:?}");
        assert!(text.ends_with(&format!("\r{:1$}\r", "", line.len())), "{text:?}");
    }

    #[test]
    fn a_short_call_is_not() {
        assert_eq!(told(Duration::from_secs(60), |_| false), "");
    }
}
