//! A headless Chromium that a test drives, by the pipe of its debugging protocol.

use std::env;
use std::fs::{self, File};
use std::io::{BufRead, BufReader, Write};
use std::path::{Path, PathBuf};
use std::process::{Child, Command, Stdio};

/// What Chromium is called.
const NAMES: [&str; 3] = ["chromium", "chromium-browser", "google-chrome"];

/// A page that is open.
pub struct Browser {
    child: Child,
    to: File,
    from: BufReader<File>,
    session: String,
    sent: usize,
    folder: PathBuf,
    /// What the console and the page's scripts told.
    pub told: Vec<String>,
}

/// Chromium, if it is on the path.
pub fn program() -> Option<PathBuf> {
    let path = env::var_os("PATH").unwrap_or_default();
    let files = env::split_paths(&path).flat_map(|folder| NAMES.map(|name| folder.join(name)));
    files.into_iter().find(|file| file.is_file())
}

impl Browser {
    /// Starts Chromium, with pipes in a folder of its own.
    pub fn start(program: &Path, name: &str) -> Browser {
        let folder = PathBuf::from(env!("CARGO_TARGET_TMPDIR")).join(name);
        let _ = fs::remove_dir_all(&folder);
        fs::create_dir(&folder).expect("a folder");
        let made = Command::new("mkfifo").args(["in", "out"]).current_dir(&folder).status();
        assert!(made.expect("mkfifo").success());
        let line =
            "exec timeout 240 \"$0\" --headless=new --no-sandbox --disable-gpu --no-first-run \
                    --user-data-dir=profile --remote-debugging-pipe 3<in 4>out";
        let mut shell = Command::new("sh");
        shell.args(["-c", line]).arg(program).current_dir(&folder);
        let child = shell.stdin(Stdio::null()).stdout(Stdio::null()).stderr(Stdio::null()).spawn();
        let child = child.expect("a shell");
        let to = File::options().write(true).open(folder.join("in")).expect("a pipe");
        let from = BufReader::new(File::open(folder.join("out")).expect("a pipe"));
        let (session, told) = (String::new(), Vec::new());
        Browser { child, to, from, session, sent: 0, folder, told }
    }

    /// Opens a file in a new page, of this width, and waits until it is there.
    pub fn open(&mut self, file: &str, width: usize, with_scripts: bool) {
        self.session.clear();
        self.told.clear();
        let target = self.call("Target.createTarget", "\"url\":\"about:blank\"");
        let target = field(&target, "targetId");
        let attached = self
            .call("Target.attachToTarget", &format!("\"targetId\":\"{target}\",\"flatten\":true"));
        self.session = field(&attached, "sessionId").into();
        ["Page.enable", "Runtime.enable", "Log.enable"].iter().for_each(|method| {
            self.call(method, "");
        });
        let metrics =
            format!("\"width\":{width},\"height\":900,\"deviceScaleFactor\":1,\"mobile\":false");
        self.call("Emulation.setDeviceMetricsOverride", &metrics);
        self.call("Emulation.setScriptExecutionDisabled", &format!("\"value\":{}", !with_scripts));
        self.call("Page.navigate", &format!("\"url\":{}", quoted(&format!("file://{file}"))));
        while self.value("location.protocol + document.readyState") != "file:complete" {}
    }

    /// What a script's expression is, as text.
    pub fn value(&mut self, expression: &str) -> String {
        let text = quoted(&format!("String({expression})"));
        let reply =
            self.call("Runtime.evaluate", &format!("\"returnByValue\":true,\"expression\":{text}"));
        assert!(!reply.contains("exceptionDetails"), "{expression}: {reply}");
        field(&reply, "value").into()
    }

    /// Whether a script's expression is true.
    pub fn holds(&mut self, expression: &str) -> bool {
        self.value(&format!("Boolean({expression})")) == "true"
    }

    /// Calls a method, and waits for its reply.
    pub fn call(&mut self, method: &str, words: &str) -> String {
        self.sent += 1;
        let session = match self.session.is_empty() {
            true => String::new(),
            false => format!(",\"sessionId\":\"{}\"", self.session),
        };
        let call = format!(
            "{{\"id\":{},\"method\":\"{method}\",\"params\":{{{words}}}{session}}}\0",
            self.sent
        );
        self.to.write_all(call.as_bytes()).expect("the browser listens");
        let start = format!("{{\"id\":{},", self.sent);
        loop {
            let mut message = Vec::new();
            self.from.read_until(0, &mut message).expect("the browser answers");
            let message = String::from_utf8(message).expect("text");
            assert!(!message.is_empty(), "the browser has ended");
            if message.starts_with(&start) {
                assert!(!message.contains("\"error\":"), "{method}: {message}");
                return message.trim_end_matches('\0').into();
            }
            let of_page = ["exceptionThrown", "consoleAPICalled", "Log.entryAdded"];
            if of_page.iter().any(|name| message.contains(name)) {
                self.told.push(message);
            }
        }
    }

    /// Clicks with the mouse on the first element that a selector finds.
    pub fn click(&mut self, selector: &str) {
        let found = format!("document.querySelector({})", quoted(selector));
        self.value(&format!("{found}.scrollIntoView({{block: 'center'}}), 1"));
        let place = self.value(&format!(
            "(() => {{ const r = {found}.getBoundingClientRect(); return (r.x + 5) + ' ' + (r.y + r.height / 2); }})()"
        ));
        let (x, y) = place.split_once(' ').expect("two numbers");
        for kind in ["mousePressed", "mouseReleased"] {
            let words = format!(
                "\"type\":\"{kind}\",\"x\":{x},\"y\":{y},\"button\":\"left\",\"clickCount\":1"
            );
            self.call("Input.dispatchMouseEvent", &words);
        }
    }

    /// Presses a key.
    pub fn press(&mut self, key: &str, code: u32, text: &str) {
        let words = format!("\"key\":\"{key}\",\"windowsVirtualKeyCode\":{code}");
        let text =
            if text.is_empty() { String::new() } else { format!(",\"text\":{}", quoted(text)) };
        self.call("Input.dispatchKeyEvent", &format!("\"type\":\"keyDown\",{words}{text}"));
        self.call("Input.dispatchKeyEvent", &format!("\"type\":\"keyUp\",{words}"));
    }
}

impl Drop for Browser {
    fn drop(&mut self) {
        self.session.clear();
        self.sent += 1;
        let close = format!("{{\"id\":{},\"method\":\"Browser.close\"}}\0", self.sent);
        if self.to.write_all(close.as_bytes()).is_err() {
            let _ = self.child.kill();
        }
        let _ = self.child.wait();
        let _ = fs::remove_dir_all(&self.folder);
    }
}

/// A field of a reply that is text.
pub fn field<'a>(reply: &'a str, name: &str) -> &'a str {
    let mark = format!("\"{name}\":\"");
    let (_, rest) = reply.split_once(&mark).unwrap_or_else(|| panic!("no {name}: {reply}"));
    rest.split('"').next().unwrap_or_default()
}

/// A text as JSON.
fn quoted(text: &str) -> String {
    let mut quoted = String::from("\"");
    for c in text.chars() {
        match c {
            '"' | '\\' => quoted.extend(['\\', c]),
            _ if c.is_control() => quoted += &format!("\\u{:04x}", u32::from(c)),
            _ => quoted.push(c),
        }
    }
    quoted + "\""
}
